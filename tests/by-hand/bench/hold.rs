// Holds the plain program to answers of tests/oracle: reads recorded lines from standard input, and compares the four numbers, the report
// and what both slices hold afterwards.
use std::io::{stdin, BufRead};
use std::process::ExitCode;

/// What the slices hold before a call.
const BEFORE: u32 = 0xDEAD_BEEF;

/// More than any allowed budget needs; the lines of code 1 speak of longer slices.
const MOST_WORK: u64 = 1 << 20;

/// So many words past each report are looked at after its call, the others once at the end.
const NEAR: usize = 1 << 16;

/// Deep questions recurse deeply.
const STACK: usize = 1 << 28;

struct Recorded {
    budget: u32,
    work: usize,
    room: usize,
    words: Vec<u32>,
    numbers: Vec<u32>,
    report: Vec<u32>,
}

fn numbers<T: std::str::FromStr>(text: &str) -> Option<Vec<T>> {
    text.split_whitespace().map(|word| word.parse().ok()).collect()
}

/// A line: budget work room | question | code at length units | report.
fn parse(line: &str) -> Option<Recorded> {
    let (sizes, rest) = line.split_once('|')?;
    let sizes = numbers::<u64>(sizes)?;
    let [budget, work, room] = sizes[..] else { return None };
    let mut parts = rest.split('|').map(numbers);
    let (words, numbers, report) = (parts.next()??, parts.next()??, parts.next()??);
    let work = work.min(MOST_WORK) as usize;
    Some(Recorded { budget: budget as u32, work, room: room as usize, words, numbers, report })
}

/// The two slices, which hold `BEFORE` throughout between calls.
struct Slices {
    work: Vec<u32>,
    report: Vec<u32>,
}

/// The first `len` words of a slice that grows as needed.
fn part(slice: &mut Vec<u32>, len: usize) -> &mut [u32] {
    if slice.len() < len {
        slice.resize(len, BEFORE);
    }
    &mut slice[..len]
}

fn untouched(words: &[u32]) -> bool {
    words.iter().all(|&word| word == BEFORE)
}

/// What differs, if anything; leaves the slices as they were.
fn held(asked: &Recorded, slices: &mut Slices) -> Result<(), &'static str> {
    let work = part(&mut slices.work, asked.work);
    let report = part(&mut slices.report, asked.room);
    let reply = plain::check(&asked.words, asked.budget, work, report);
    let written = asked.report.len();
    let cleared = match reply.code {
        1..=5 => 0,
        _ => 32 * asked.budget as usize + 4_096,
    };
    let near = asked.room.min(written + NEAR);
    let found = if [reply.code, reply.at, reply.len, reply.units] != asked.numbers[..] {
        Err("the four numbers")
    } else if report[..written] != asked.report[..] {
        Err("the report")
    } else if !untouched(&report[written..near]) {
        Err("the report slice past the report")
    } else if work[..cleared].iter().any(|&word| word != 0) || !untouched(&work[cleared..]) {
        Err("the work slice afterwards")
    } else {
        Ok(())
    };
    report[..written].fill(BEFORE);
    work[..cleared].fill(BEFORE);
    found
}

fn hold_all() -> Result<usize, String> {
    let mut slices = Slices { work: Vec::new(), report: Vec::new() };
    let mut count = 0;
    for line in stdin().lock().lines() {
        let line = line.map_err(|error| error.to_string())?;
        if line.starts_with('#') {
            continue;
        }
        let asked = parse(&line).ok_or_else(|| format!("not a recorded line: {line}"))?;
        held(&asked, &mut slices).map_err(|what| format!("{what}: {line}"))?;
        count += 1;
    }
    if !untouched(&slices.report) {
        return Err("the report slice was written past its length".to_string());
    }
    Ok(count)
}

fn main() -> ExitCode {
    let thread = std::thread::Builder::new().stack_size(STACK).spawn(hold_all);
    match thread.expect("a thread with a large stack").join().expect("no panic") {
        Ok(count) => {
            println!("the plain program agrees on {count} answers");
            ExitCode::SUCCESS
        }
        Err(reason) => {
            eprintln!("differs: {reason}");
            ExitCode::FAILURE
        }
    }
}
