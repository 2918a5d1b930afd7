// What is printed: mean times and ratios for each class, the line through the growing class, and the points of the curve.
use std::fmt::Write;

use crate::timing::{Timed, Times};

/// The mean, where every case has one.
fn mean(times: &[Times], of: impl Fn(&Times) -> Option<f64>) -> Option<f64> {
    let all: Option<Vec<f64>> = times.iter().map(of).collect();
    all.map(|all| all.iter().sum::<f64>() / all.len() as f64)
}

fn cell(value: Option<f64>, digits: usize) -> String {
    value.map_or("-".to_string(), |value| format!("{value:.digits$}"))
}

fn ratio(over: Option<f64>, under: Option<f64>) -> String {
    cell(over.zip(under).map(|(over, under)| over / under), 2)
}

pub fn print(classes: &[Timed]) {
    println!("nanoseconds for a question (mean of its class), and ratios");
    println!(
        "{:<32} {:>5} {:>10} {:>10} {:>12} {:>15} {:>18} {:>15}",
        "class",
        "asked",
        "exported",
        "plain",
        "original",
        "exported/plain",
        "original/exported",
        "original/plain"
    );
    for Timed { class, times } in classes {
        let exported = mean(times, |t| t.exported);
        let plain = mean(times, |t| Some(t.plain));
        let original = mean(times, |t| t.original);
        println!(
            "{:<32} {:>5} {:>10} {:>10} {:>12} {:>15} {:>18} {:>15}",
            class.name,
            times.len(),
            cell(exported, 0),
            cell(plain, 0),
            cell(original, 0),
            ratio(exported, plain),
            ratio(original, exported),
            ratio(original, plain)
        );
    }
    print_line("exported", &classes[1].times, |t| t.exported);
    print_line("plain", &classes[1].times, |t| Some(t.plain));
    print_line("original", &classes[1].times, |t| t.original);
}

/// The least squares line of time by units, and how much of the times it explains.
fn print_line(name: &str, times: &[Times], of: impl Fn(&Times) -> Option<f64>) {
    let points: Option<Vec<(f64, f64)>> =
        times.iter().map(|t| of(t).map(|y| (f64::from(t.units), y))).collect();
    let Some(points) = points else { return };
    let n = points.len() as f64;
    let (mx, my) = points.iter().fold((0.0, 0.0), |(a, b), (x, y)| (a + x / n, b + y / n));
    let cross: f64 = points.iter().map(|(x, y)| (x - mx) * (y - my)).sum();
    let (xx, yy) = points
        .iter()
        .fold((0.0, 0.0), |(a, b), (x, y)| (a + (x - mx).powi(2), b + (y - my).powi(2)));
    let slope = cross / xx;
    println!(
        "generated, {name}: {:.0} ns + {slope:.1} ns for each unit (R squared {:.4})",
        my - slope * mx,
        cross * cross / (xx * yy)
    );
}

/// Lines of units and nanoseconds: exported, plain, original.
pub fn write_curve(timed: &Timed, file: &str) -> Result<(), String> {
    let mut text = String::new();
    for t in &timed.times {
        let cells = [cell(t.exported, 0), cell(Some(t.plain), 0), cell(t.original, 0)];
        writeln!(text, "{} {}", t.units, cells.join(" ")).expect("a String takes all");
    }
    std::fs::write(file, text).map_err(|error| format!("{file}: {error}"))
}
