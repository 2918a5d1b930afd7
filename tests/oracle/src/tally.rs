// What a set of questions reached: kinds, modes, rules, codes, faults.
use std::collections::BTreeMap;
use std::fmt;

use crate::asked::Reply;
use crate::decode::{report, rules};
use crate::reading::read;
use crate::report::RULES;

/// Codes that a reply can have. 8 is the telephone host's; no question draws 16 (never_16, crates/promises/proofs/Main.antt).
pub const CODES: [u32; 14] = [0, 1, 2, 3, 4, 5, 6, 7, 11, 12, 13, 14, 15, 17];

/// Counts in plain and in strict mode.
type Pair = [u64; 2];

/// What strict mode's comparison of parameters was asked (order 2).
#[derive(Default)]
pub struct Letters {
    /// Parameters of accepted questions that are the expected ones in other letters.
    pub accepted: u64,
    /// 17s of two types that both hold a Forall.
    pub refused: u64,
    /// Questions with a ChkLam that were held to the plain twin's tree.
    pub twins: u64,
    /// 17s at the root, worked out from the question.
    pub worked_out: u64,
}

impl Letters {
    /// What was reached less often than is usual, of so many questions held to the original.
    pub fn missing(&self, held: u64) -> Vec<String> {
        let usual = [
            (self.accepted, 10, "other letters accepted"),
            (self.refused, 15, "17 of Foralls"),
            (self.twins, 6, "strict with ChkLam by a plain twin"),
            (self.worked_out, 25, "17 at the root worked out"),
        ];
        let seldom = usual.into_iter().filter(|(count, of, _)| count * of < held);
        seldom.map(|(_, _, name)| name.to_string()).collect()
    }
}

impl fmt::Display for Letters {
    fn fmt(&self, f: &mut fmt::Formatter) -> fmt::Result {
        writeln!(f, "strict parameters accepted in other letters: {}", self.accepted)?;
        writeln!(f, "17s of two types that both hold a Forall: {}", self.refused)?;
        writeln!(f, "17s at the root, worked out from the question: {}", self.worked_out)?;
        writeln!(
            f,
            "strict with ChkLam, held to the plain twin and so to the original: {}",
            self.twins
        )
    }
}

#[derive(Default)]
pub struct Tally {
    pub questions: u64,
    pub held: u64,
    pub unfinished: u64,
    pub too_large: u64,
    pub twins: u64,
    pub recounted: u64,
    pub letters: Letters,
    kinds: BTreeMap<u32, Pair>,
    codes: BTreeMap<u32, Pair>,
    rules: BTreeMap<u32, Pair>,
    faults: BTreeMap<(u32, &'static str, usize), u64>,
}

fn mode(words: &[u32]) -> usize {
    usize::from(words.get(1) == Some(&1))
}

/// The rules of a reply's tree, parent first; none where there is no tree.
pub fn rules_of(reply: &Reply) -> Vec<u32> {
    let mut found = Vec::new();
    if reply.code == 0 {
        let read = report(&reply.report).expect("our own report can be read");
        rules(&read.tree, &mut found);
    }
    found
}

impl Tally {
    /// Counts a question that can be read under its kind, another under its fault.
    pub fn count_question(&mut self, words: &[u32]) {
        self.questions += 1;
        match read(words) {
            Ok(question) => self.kinds.entry(question.kind).or_default()[mode(words)] += 1,
            Err(fault) => {
                let key = (fault.code, fault.cause, fault.section);
                *self.faults.entry(key).or_default() += 1;
            }
        }
    }

    pub fn count_reply(&mut self, words: &[u32], reply: &Reply) {
        let mode = mode(words);
        self.codes.entry(reply.code).or_default()[mode] += 1;
        for rule in rules_of(reply) {
            self.rules.entry(rule).or_default()[mode] += 1;
        }
    }

    /// Names of rules (in either mode), codes and kinds that were not reached.
    pub fn missing(&self) -> Vec<String> {
        let none = |map: &BTreeMap<u32, Pair>, key: u32, mode: usize| {
            map.get(&key).is_none_or(|pair| pair[mode] == 0)
        };
        let mut missing = Vec::new();
        for (mode, mode_name) in ["plain", "strict"].into_iter().enumerate() {
            let rules = (1..=37).filter(|rule| none(&self.rules, *rule, mode));
            missing.extend(rules.map(|rule| format!("rule {rule} {mode_name}")));
            let kinds = (1..=7).filter(|kind| none(&self.kinds, *kind, mode));
            missing.extend(kinds.map(|kind| format!("kind {kind} {mode_name}")));
            let occurs = |code: &u32| *code != 17 || mode == 1;
            let codes = CODES.into_iter().filter(occurs);
            let codes = codes.filter(|code| none(&self.codes, *code, mode));
            missing.extend(codes.map(|code| format!("code {code} {mode_name}")));
        }
        missing
    }
}

fn pair(f: &mut fmt::Formatter, name: &str, [plain, strict]: Pair) -> fmt::Result {
    writeln!(f, "{name:<24} {plain:>10} {strict:>10}")
}

impl fmt::Display for Tally {
    fn fmt(&self, f: &mut fmt::Formatter) -> fmt::Result {
        writeln!(f, "questions {}", self.questions)?;
        writeln!(f, "held to the original, string by string: {}", self.held)?;
        writeln!(f, "plain, not asked: out of budget at 8,192: {}", self.unfinished)?;
        writeln!(f, "plain, not asked: too large for its strings: {}", self.too_large)?;
        writeln!(f, "units and places held to the tree, both modes: {}", self.recounted)?;
        writeln!(f, "strict, held to the plain twin and so to the original: {}", self.twins)?;
        writeln!(f, "{:<24} {:>10} {:>10}", "", "plain", "strict")?;
        for (kind, count) in &self.kinds {
            pair(f, &format!("kind {kind}"), *count)?;
        }
        for (code, count) in &self.codes {
            pair(f, &format!("code {code}"), *count)?;
        }
        writeln!(f, "no question draws 16 (never-16); code 8 is the telephone host's")?;
        for (index, name) in RULES.iter().enumerate() {
            let rule = index as u32 + 1;
            let count = self.rules.get(&rule).copied().unwrap_or_default();
            pair(f, &format!("rule {rule} {name}"), count)?;
        }
        for ((code, cause, section), count) in &self.faults {
            writeln!(f, "{:<40} {count:>10}", format!("fault {code}, section {section}: {cause}"))?;
        }
        Ok(())
    }
}
