// Questions with the sizes that they are asked with, in classes.
use crate::question::Question;
use crate::reading::read;

/// The slices of the class of formulas, the desk program's.
pub const DESK_BUDGET: u32 = 384;
pub const DESK_ROOM: usize = 4_096;

/// The largest budget, and room for every report that it can fill here.
pub const MOST_BUDGET: u32 = 8_192;
pub const MOST_ROOM: usize = 1 << 20;

pub fn needed_work(budget: u32) -> usize {
    32 * budget as usize + 4_096
}

/// One question as it is asked.
pub struct Case {
    pub words: Vec<u32>,
    pub budget: u32,
    pub room: usize,
    /// The question as the original's conversion takes it; none where the original is not asked.
    pub parts: Option<Question>,
}

impl Case {
    pub fn new(words: Vec<u32>, budget: u32, room: usize) -> Case {
        let parts = read(&words).ok();
        Case { words, budget, room, parts }
    }

    /// A case that the original, which knows no refusals but type errors, cannot answer alike.
    pub fn without_original(words: Vec<u32>, budget: u32, room: usize) -> Case {
        Case { words, budget, room, parts: None }
    }
}

pub struct Class {
    pub name: &'static str,
    pub cases: Vec<Case>,
}

impl Class {
    pub fn new(name: &'static str, cases: Vec<Case>) -> Class {
        Class { name, cases }
    }

    /// The formulas that compile.py turned into words; each must be accepted or refused as its text claims.
    pub fn formulas(file: &str) -> Result<Class, String> {
        let text = std::fs::read_to_string(file).map_err(|error| format!("{file}: {error}"))?;
        let cases = text.lines().map(formula).collect::<Result<Vec<Case>, String>>()?;
        Ok(Class::new("formulas", cases))
    }
}

/// A line: name | claimed accepted or claimed refused | budget work room | words.
fn formula(line: &str) -> Result<Case, String> {
    let parts: Vec<&str> = line.split('|').map(str::trim).collect();
    let [name, claim, _, words] = parts[..] else { return Err(format!("not a formula: {line}")) };
    let words: Result<Vec<u32>, _> = words.split_whitespace().map(str::parse).collect();
    let case = Case::new(words.map_err(|_| line.to_string())?, DESK_BUDGET, DESK_ROOM);
    let mut work = vec![0; needed_work(DESK_BUDGET)];
    let mut report = vec![0; DESK_ROOM];
    let reply = plain::check(&case.words, DESK_BUDGET, &mut work, &mut report);
    let as_claimed = match claim {
        "claimed accepted" => reply.code == 0,
        "claimed refused" => (11..=17).contains(&reply.code),
        _ => return Err(format!("no claim: {line}")),
    };
    as_claimed.then_some(case).ok_or_else(|| format!("{name} is not as claimed ({claim}): {reply:?}"))
}
