// The benchmark: the exported function, the plain program and the original Rust on the same words, in one run. See ../README.md.
#![no_main]

mod cases;
mod contenders;
#[cfg(exported)]
mod exported;
mod generated;
mod refusals;
mod tables;
mod timing;

// The oracle's own reading, conversion and makers.
#[allow(dead_code)]
#[path = "../../../oracle/src/convert.rs"]
mod convert;
#[allow(dead_code)]
#[path = "../../../oracle/src/make_damage.rs"]
mod make_damage;
#[allow(dead_code)]
#[path = "../../../oracle/src/make_types.rs"]
mod make_types;
#[allow(dead_code)]
#[path = "../../../oracle/src/question.rs"]
mod question;
#[allow(dead_code)]
#[path = "../../../oracle/src/reading.rs"]
mod reading;
#[allow(dead_code)]
#[path = "../../../oracle/src/rng.rs"]
mod rng;

use cases::Class;

/// Deep questions recurse deeply.
const STACK: usize = 1 << 28;

/// All classes, the formulas and the generated questions first.
fn classes(formulas: &str) -> Result<Vec<Class>, String> {
    let generated = generated::questions();
    let mut classes =
        vec![Class::formulas(formulas)?, Class::new("generated, well typed", generated)];
    classes.extend(refusals::classes(&classes[1].cases));
    Ok(classes)
}

fn bench(formulas: &str, curve: &str) -> Result<(), String> {
    let classes = classes(formulas)?;
    for class in &classes {
        contenders::hold_together(class)?;
    }
    let timed: Vec<_> = classes.iter().map(timing::time).collect();
    tables::print(&timed);
    tables::write_curve(&timed[1], curve)
}

/// Asks the exported function alone, for a profiler to watch.
fn watched(formulas: &str, class: &str) -> Result<(), String> {
    let classes = classes(formulas)?;
    let found = classes.iter().find(|found| found.name == class);
    timing::exported_alone(found.ok_or_else(|| format!("no class {class}"))?);
    Ok(())
}

fn run() -> Result<(), String> {
    let arguments: Vec<String> = std::env::args().collect();
    let arguments: Vec<&str> = arguments.iter().map(String::as_str).collect();
    match arguments[..] {
        [_, formulas, curve] => bench(formulas, curve),
        [_, "--watched", formulas, class] => watched(formulas, class),
        _ => Err("usage: bench FORMULAS CURVE | bench --watched FORMULAS CLASS".to_string()),
    }
}

// The C library's own main: the kit's emulator does not bear what std's does before it.
#[no_mangle]
pub extern "C" fn main() -> i32 {
    let thread = std::thread::Builder::new().stack_size(STACK).spawn(run);
    match thread.expect("a thread with a large stack").join() {
        Ok(Ok(())) => 0,
        Ok(Err(reason)) => {
            eprintln!("bench: {reason}");
            1
        }
        Err(_) => 1,
    }
}
