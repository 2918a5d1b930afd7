// Commands over lines: generated questions, answers to them, and a replay.
use std::collections::HashSet;
use std::io::{stdin, stdout, BufRead, BufWriter, Write};

use crate::asked::{parse_asked, parse_recorded};
use crate::compare::full_reply;
use crate::make_sizes::in_full;
use crate::make_types::Maker;
use crate::reply::reply;
use crate::tally::Tally;

fn written(result: std::io::Result<()>) -> Result<(), String> {
    result.map_err(|error| error.to_string())
}

/// Prints questions with sizes, without their replies.
pub fn generate(count: u64, seed: u64) -> Result<(), String> {
    let mut maker = Maker::new(seed);
    let mut out = BufWriter::new(stdout().lock());
    for _ in 0..count {
        let words = maker.any_words();
        let full = reply(&in_full(&words));
        let asked = maker.resized(words, &full);
        written(writeln!(out, "{asked}"))?;
    }
    written(out.flush())
}

/// Answers each line of the standard input.
pub fn answer() -> Result<(), String> {
    let mut out = BufWriter::new(stdout().lock());
    for line in stdin().lock().lines() {
        let line = line.map_err(|error| error.to_string())?;
        if line.starts_with('#') || line.trim().is_empty() {
            continue;
        }
        let asked = parse_asked(&line).ok_or_else(|| format!("not a question: {line}"))?;
        written(writeln!(out, "{asked} | {}", reply(&asked)))?;
    }
    written(out.flush())
}

/// Holds each recorded line of the files to the live answer, and that to the original where it can be asked.
pub fn replay(files: &[String]) -> Result<(), String> {
    let mut seen = HashSet::new();
    let mut tally = Tally::default();
    for file in files {
        let text = std::fs::read_to_string(file).map_err(|error| format!("{file}: {error}"))?;
        for line in text.lines().filter(|line| !line.starts_with('#')) {
            let (asked, recorded) =
                parse_recorded(line).ok_or_else(|| format!("not a recorded line: {line}"))?;
            let live = reply(&asked);
            if live != recorded {
                return Err(format!("{asked}\n  recorded {recorded}\n  live     {live}"));
            }
            full_reply(&asked.words, &mut tally)?;
            seen.insert(line.to_string());
        }
    }
    if seen.is_empty() {
        return Err("no recorded answer".to_string());
    }
    println!("{} of the recorded questions held to the original", tally.held);
    println!("{} passed, 0 failed", seen.len());
    Ok(())
}
