// The one reply of document 01 to any words, budget and buffers.
use crate::asked::{Asked, Reply};
use crate::question::Question;
use crate::reading::read;
use crate::report::{error_parts, found_words, section_words, Lengths};
use crate::run::{run, Ending};

pub const MOST_BUDGET: u32 = 8_192;
pub const MOST_WORDS: usize = 2_048;

pub fn needed_work(budget: u32) -> u64 {
    32 * u64::from(budget) + 4_096
}

fn refused_unread(asked: &Asked) -> Option<u32> {
    if !(1..=MOST_BUDGET).contains(&asked.budget) {
        Some(1)
    } else if asked.work < needed_work(asked.budget) {
        Some(2)
    } else if !(1..=MOST_WORDS).contains(&asked.words.len()) {
        Some(3)
    } else {
        None
    }
}

pub fn reply(asked: &Asked) -> Reply {
    if let Some(code) = refused_unread(asked) {
        return Reply::bare(code, 0, 0);
    }
    match read(&asked.words) {
        Err(fault) => Reply::bare(fault.code, fault.at as u32, 0),
        Ok(question) => judged(&question, asked.budget, asked.room),
    }
}

fn judged(question: &Question, budget: u32, room: u64) -> Reply {
    let ran = run(question, budget);
    match &ran.ending {
        Ending::OutOfBudget => Reply::bare(6, 0, budget),
        Ending::Found(found) => {
            let length = Lengths::default().found(found);
            with_report(0, 0, ran.units, room, length, || found_words(found))
        }
        Ending::Refused(error) => {
            let (code, at, types) = error_parts(error);
            let length = Lengths::default().sections(types);
            with_report(code, at, ran.units, room, length, || section_words(types))
        }
    }
}

/// The reply with its report, which is built only where it fits.
fn with_report(
    code: u32,
    at: u32,
    units: u32,
    room: u64,
    length: u64,
    words: impl FnOnce() -> Vec<u32>,
) -> Reply {
    let most = u64::from(u32::MAX);
    if length > room || length > most {
        let length = length.min(most) as u32;
        return Reply { length, ..Reply::bare(7, 0, units) };
    }
    let report = words();
    assert_eq!(report.len() as u64, length, "the report's measured length");
    Reply { code, at, length: length as u32, units, report }
}
