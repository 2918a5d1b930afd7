// What is asked and what is replied, and the lines they are recorded in.
use std::fmt;

#[derive(Debug, Clone, PartialEq)]
pub struct Asked {
    pub budget: u32,
    /// Lengths of the work slice and of the report slice, in words.
    pub work: u64,
    pub room: u64,
    pub words: Vec<u32>,
}

#[derive(Debug, Clone, PartialEq)]
pub struct Reply {
    pub code: u32,
    pub at: u32,
    pub length: u32,
    pub units: u32,
    pub report: Vec<u32>,
}

impl Reply {
    /// A reply without a report.
    pub fn bare(code: u32, at: u32, units: u32) -> Reply {
        Reply { code, at, length: 0, units, report: Vec::new() }
    }
}

pub fn spaced(words: &[u32]) -> String {
    let texts: Vec<String> = words.iter().map(u32::to_string).collect();
    texts.join(" ")
}

impl fmt::Display for Asked {
    fn fmt(&self, f: &mut fmt::Formatter) -> fmt::Result {
        write!(f, "{} {} {} | {}", self.budget, self.work, self.room, spaced(&self.words))
    }
}

impl fmt::Display for Reply {
    fn fmt(&self, f: &mut fmt::Formatter) -> fmt::Result {
        let Reply { code, at, length, units, report } = self;
        write!(f, "{code} {at} {length} {units} | {}", spaced(report))
    }
}

fn numbers<T: std::str::FromStr>(text: &str) -> Option<Vec<T>> {
    text.split_whitespace().map(|word| word.parse().ok()).collect()
}

/// The question of a line, with or without its reply.
pub fn parse_asked(line: &str) -> Option<Asked> {
    let mut parts = line.split('|');
    let sizes: Vec<u64> = numbers(parts.next()?)?;
    let words = numbers(parts.next()?)?;
    let [budget, work, room] = sizes[..] else { return None };
    Some(Asked { budget: u32::try_from(budget).ok()?, work, room, words })
}

/// The question and the reply of a recorded line.
pub fn parse_recorded(line: &str) -> Option<(Asked, Reply)> {
    let asked = parse_asked(line)?;
    let mut parts = line.split('|').skip(2);
    let four: Vec<u32> = numbers(parts.next()?)?;
    let report = numbers(parts.next()?)?;
    let [code, at, length, units] = four[..] else { return None };
    Some((asked, Reply { code, at, length, units, report }))
}
