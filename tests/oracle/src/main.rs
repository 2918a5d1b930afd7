// The Rust comparison program: see README.md.
mod asked;
mod cases;
mod compare;
mod convert;
mod decode;
mod frames;
mod large_letters;
mod letters;
mod make_contexts;
mod make_damage;
mod make_large;
mod make_letters;
mod make_questions;
mod make_sizes;
mod make_terms;
mod make_types;
mod original_run;
mod places;
mod question;
mod reading;
mod record;
mod record_letters;
mod recount;
mod rename;
mod replay;
mod reply;
mod report;
mod rng;
mod run;
mod strings;
mod tally;

use std::path::Path;
use std::process::ExitCode;

/// Deep questions recurse deeply, in the Rust and here.
const STACK: usize = 2 << 30;

const USAGE: &str = "usage: oracle compare --count N --seed S
       oracle record --count N --seed S --date D [--family letters]
       oracle generate --count N --seed S
       oracle answer < LINES
       oracle frames --count N --seed S
       oracle desk --count N --seed S
       oracle replay FILE..";

/// The value after a flag.
fn flag<'a>(arguments: &'a [String], name: &str) -> Result<&'a str, String> {
    let at = arguments.iter().position(|argument| argument == name);
    let value = at.and_then(|at| arguments.get(at + 1));
    value.map(String::as_str).ok_or_else(|| format!("{name} is missing\n{USAGE}"))
}

fn number(arguments: &[String], name: &str) -> Result<u64, String> {
    flag(arguments, name)?.parse().map_err(|_| format!("{name} wants a number\n{USAGE}"))
}

/// More than a billion is taken for a slip.
fn counted(arguments: &[String]) -> Result<u64, String> {
    match number(arguments, "--count")? {
        count @ 1..=1_000_000_000 => Ok(count),
        _ => Err(format!("--count is 1 to 1,000,000,000\n{USAGE}")),
    }
}

fn command(arguments: &[String]) -> Result<(), String> {
    let count = || counted(arguments);
    let seed = || number(arguments, "--seed");
    let date = || flag(arguments, "--date");
    let letters = || flag(arguments, "--family") == Ok("letters");
    let files = || arguments[1..].iter().all(|file| Path::new(file).is_file());
    match (arguments.first().map_or("", String::as_str), arguments.len()) {
        ("compare", 5) => compare::compare(count()?, seed()?),
        ("record", 7) => record::record(count()? as usize, seed()?, date()?, false),
        ("record", 9) if letters() => record::record(count()? as usize, seed()?, date()?, true),
        ("generate", 5) => replay::generate(count()?, seed()?),
        ("answer", 1) => replay::answer(),
        ("frames", 5) => frames::frames(count()?, seed()?),
        ("desk", 5) => frames::desk(count()?, seed()?),
        ("replay", 2..) if files() => replay::replay(&arguments[1..]),
        _ => Err(USAGE.to_string()),
    }
}

fn main() -> ExitCode {
    let arguments: Vec<String> = std::env::args().skip(1).collect();
    let work = move || command(&arguments);
    let thread = std::thread::Builder::new().stack_size(STACK).spawn(work);
    match thread.expect("a thread with a large stack").join() {
        Ok(Ok(())) => ExitCode::SUCCESS,
        Ok(Err(reason)) => {
            eprintln!("{reason}");
            ExitCode::from(if reason.ends_with(USAGE) { 2 } else { 1 })
        }
        Err(_) => ExitCode::FAILURE,
    }
}
