// Chooses questions for the recorded answers, so that few lines reach much.
use std::collections::HashMap;

use crate::asked::{Asked, Reply};
use crate::cases;
use crate::compare::full_reply;
use crate::make_large::{of_length, vast};
use crate::make_sizes::in_full;
use crate::make_types::Maker;
use crate::reading::{read, Fault};
use crate::record_letters::choose_letters;
use crate::reply::{needed_work, reply, MOST_BUDGET};
use crate::tally::{rules_of, Tally};

/// How often each feature is wanted, and how many questions are looked at for it.
const WANTED: u32 = 3;
const LOOKED_AT: u32 = 60_000;

/// Limits that keep most lines short and quick to compute.
const MOST_QUESTION: usize = 70;
const MOST_REPORT: usize = 900;
const MOST_UNITS: u32 = 700;

#[derive(Default)]
pub struct Chosen {
    pub lines: Vec<(Asked, Reply)>,
    seen: HashMap<String, u32>,
}

/// What a line shows; a line is chosen for a feature that was seen too seldom.
fn features(asked: &Asked, answer: &Reply, full: &Reply) -> Vec<String> {
    let kind = asked.words.first().map_or(8, |kind| *kind.min(&8));
    match (answer.code, read(&asked.words)) {
        (code @ 1..=3, _) => vec![format!("code {code} kind {kind}")],
        (_, Err(fault)) => fault_features(&asked.words, &fault),
        _ => run_features(asked, answer, full),
    }
}

/// The fault's cause with the kind, and with the word before it.
fn fault_features(words: &[u32], fault: &Fault) -> Vec<String> {
    let cause = format!("{} in section {}", fault.cause, fault.section);
    if fault.section == 0 {
        return vec![cause];
    }
    let before = words[fault.at - 1].min(40);
    vec![format!("{cause} kind {}", words[0]), format!("{cause} after {before}")]
}

pub fn run_features(asked: &Asked, answer: &Reply, full: &Reply) -> Vec<String> {
    let (code, kind, mode) = (answer.code, asked.words[0], asked.words[1]);
    let mut all = vec![format!("code {code} kind {kind} mode {mode}")];
    for rule in rules_of(answer) {
        all.push(format!("rule {rule} mode {mode} kind {kind}"));
    }
    let edge = |given: u64, needed: u64| (given.abs_diff(needed).min(2), given < needed);
    let budget = edge(u64::from(asked.budget), u64::from(full.units));
    let room = edge(asked.room, u64::from(full.length));
    all.push(format!("code {code} budget {budget:?} room {room:?} mode {mode}"));
    all
}

impl Chosen {
    pub fn take(&mut self, asked: Asked, answer: Reply, features: Vec<String>) {
        for feature in features {
            *self.seen.entry(feature).or_default() += 1;
        }
        self.lines.push((asked, answer));
    }

    pub fn shows_more(&self, features: &[String]) -> bool {
        features.iter().any(|feature| self.seen.get(feature).copied().unwrap_or(0) < WANTED)
    }

    pub fn has(&self, asked: &Asked) -> bool {
        self.lines.iter().any(|(known, _)| known == asked)
    }
}

pub fn moderate(asked: &Asked, answer: &Reply) -> bool {
    asked.words.len() <= MOST_QUESTION
        && answer.report.len() <= MOST_REPORT
        && answer.units <= MOST_UNITS
}

/// The papers' cases, the longest questions, and reports that outgrow theirs.
fn first_lines(chosen: &mut Chosen) {
    let mut asked = cases::sized();
    for length in [2_047, 2_048, 2_049] {
        asked.extend([0, 1].map(|mode| in_full(&of_length(length, mode))));
    }
    asked.extend([vast(2, 2, 3), vast(3, 6, 8)].map(|words| in_full(&words)));
    for mut asked in asked {
        asked.room = asked.room.min(4_096);
        let full = reply(&in_full(&asked.words));
        let answer = reply(&asked);
        let features = features(&asked, &answer, &full);
        if !chosen.has(&asked) {
            chosen.take(asked, answer, features);
        }
    }
}

/// A generated question at sizes of its own, with its reply and its features.
fn generated(maker: &mut Maker) -> (Asked, Reply, Vec<String>) {
    let words = match maker.rng.below(10) {
        0..=1 => maker.raw(),
        2..=4 => {
            let mut words = maker.question().words();
            maker.damage(&mut words);
            words
        }
        _ => maker.question().words(),
    };
    let full = reply(&in_full(&words));
    let mut asked = maker.resized(words, &full);
    if full.units > MOST_UNITS && asked.budget <= MOST_BUDGET {
        asked.budget = asked.budget.min(384);
        asked.work = needed_work(asked.budget);
    }
    asked.room = asked.room.min(4_096);
    let answer = reply(&asked);
    let features = features(&asked, &answer, &full);
    (asked, answer, features)
}

fn choose(count: usize, seed: u64) -> Chosen {
    let mut chosen = Chosen::default();
    first_lines(&mut chosen);
    let mut maker = Maker::new(seed);
    for _ in 0..LOOKED_AT {
        let (asked, answer, features) = generated(&mut maker);
        if moderate(&asked, &answer) && chosen.shows_more(&features) {
            chosen.take(asked, answer, features);
        }
    }
    while chosen.lines.len() < count {
        let (asked, answer, features) = generated(&mut maker);
        if moderate(&asked, &answer) && !(1..=5).contains(&answer.code) {
            chosen.take(asked, answer, features);
        }
    }
    chosen
}

/// Prints the recorded answers of all questions, or of the letters family.
pub fn record(count: usize, seed: u64, date: &str, letters: bool) -> Result<(), String> {
    let chosen = if letters { choose_letters(count, seed) } else { choose(count, seed) };
    let family = if letters { " --family letters" } else { "" };
    let mut tally = Tally::default();
    for (asked, answer) in &chosen.lines {
        tally.count_question(&asked.words);
        tally.count_reply(&asked.words, answer);
        full_reply(&asked.words, &mut tally)?;
    }
    println!("# Recorded answers of the Rust comparison program, tests/oracle, made on {date}");
    println!(
        "# by: target/oracle/oracle record --count {count} --seed {seed} --date {date}{family}"
    );
    println!("# line: budget work room | question | code at length units | report");
    println!("# answers {}", chosen.lines.len());
    let (told, missing) = if letters {
        (format!("{tally}{}", tally.letters), tally.letters.missing(tally.held))
    } else {
        (tally.to_string(), tally.missing())
    };
    told.lines().for_each(|line| println!("# {line}"));
    missing.iter().for_each(|missing| println!("# not reached: {missing}"));
    for (asked, answer) in &chosen.lines {
        println!("{asked} | {answer}");
    }
    Ok(())
}
