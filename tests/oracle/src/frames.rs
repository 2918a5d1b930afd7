// Questions with their replies as frames for tests/host/compare.c, at the edges of all sizes and at the desk program's.
use std::io::{stdout, BufWriter, Write};

use crate::asked::{Asked, Reply};
use crate::cases::{CASES, LETTERS};
use crate::compare::full_reply;
use crate::make_large::{all_large, broken_at_every_length};
use crate::make_sizes::in_full;
use crate::make_types::Maker;
use crate::reading::read;
use crate::rename::Pairing;
use crate::reply::{needed_work, reply, MOST_BUDGET, MOST_WORDS};
use crate::tally::Tally;

/// The longest report slice of a frame, and work beyond what any budget needs.
const MOST_ROOM: u64 = 65_536;
const MOST_WORK: u64 = 266_240 + 300;

pub const DESK_BUDGET: u32 = 384;
const DESK_WORK: u64 = 16_384;
const DESK_ROOM: u64 = 4_096;

/// One question in so many is asked with its twin.
const PAIRS: u32 = 8;

/// The question with the desk program's sizes.
pub fn at_the_desk(words: &[u32]) -> Asked {
    Asked { budget: DESK_BUDGET, work: DESK_WORK, room: DESK_ROOM, words: words.to_vec() }
}

impl Maker {
    /// Seldom the largest budgets: each call clears its work.
    fn frame_budget(&mut self, units: u32) -> u32 {
        match self.rng.below(24) {
            0 => 0,
            1 => 1,
            2 => self.rng.pick(&[MOST_BUDGET + 1, 100_000, u32::MAX]),
            3..=5 => 2 + self.rng.below(60),
            6..=9 => units.max(1),
            10..=12 => units.saturating_sub(1),
            13..=15 => units + 1 + self.rng.below(64),
            16..=20 => DESK_BUDGET,
            21..=22 => 1 + self.rng.below(MOST_BUDGET),
            _ => MOST_BUDGET,
        }
    }

    fn frame_work(&mut self, budget: u32) -> u64 {
        let exact = needed_work(budget);
        let work = match self.rng.below(20) {
            0 => exact - 1,
            1 => u64::from(self.rng.below(5_000)),
            2..=4 => exact + 1 + u64::from(self.rng.below(100)),
            _ => exact,
        };
        work.min(MOST_WORK)
    }

    fn frame_room(&mut self, length: u64, most: u64) -> u64 {
        let room = match self.rng.below(16) {
            0 => 0,
            1..=3 => length.saturating_sub(1),
            4..=6 => length,
            7..=8 => length + 1,
            9 => length / 2,
            10 => most.min(DESK_ROOM),
            _ => length + u64::from(self.rng.below(40)),
        };
        room.min(most)
    }

    /// The question at the edges of all sizes, and at the desk's budget and work.
    fn framed(&mut self, words: &[u32], full: &Reply) -> [Asked; 2] {
        let length = u64::from(full.length);
        let budget = self.frame_budget(full.units);
        let edge = Asked {
            budget,
            work: self.frame_work(budget),
            room: self.frame_room(length, MOST_ROOM),
            words: words.to_vec(),
        };
        let room = self.frame_room(length, DESK_ROOM);
        [edge, Asked { room, ..at_the_desk(words) }]
    }
}

fn frame(asked: &Asked, answer: &Reply) -> Vec<u8> {
    let lengths = [asked.work, asked.room, asked.words.len() as u64];
    let [work, room, count] = lengths.map(|length| length as u32);
    let Reply { code, at, length, units, report } = answer;
    let parts: [&[u32]; 4] = [
        &[asked.budget, work, room, count],
        &asked.words,
        &[*code, *at, *length, *units, report.len() as u32],
        report,
    ];
    parts.concat().into_iter().flat_map(u32::to_le_bytes).collect()
}

/// Writes frames and counts what was written.
struct Frames<W> {
    out: W,
    tally: Tally,
    frames: u64,
    pairs: u64,
}

impl<W: Write> Frames<W> {
    fn write(&mut self, asked: &Asked, answer: &Reply) -> Result<(), String> {
        self.frames += 1;
        self.tally.count_reply(&asked.words, answer);
        self.out.write_all(&frame(asked, answer)).map_err(|error| error.to_string())
    }

    /// The twin at the same sizes, once its reply is seen to be alike.
    fn write_twin(
        &mut self,
        pairing: &Pairing,
        twin: &[u32],
        asked: &Asked,
        answer: &Reply,
    ) -> Result<(), String> {
        let twin = Asked { words: twin.to_vec(), ..*asked };
        let got = reply(&twin);
        let wanted = pairing.reply(answer);
        if got != wanted {
            return Err(format!(
                "{asked} | {answer}\n  twin   {twin}\n  got    {got}\n  wanted {wanted}"
            ));
        }
        self.write(&twin, &got)
    }

    /// Both frames of a question, whose full reply is held to the original first.
    fn write_question(&mut self, maker: &mut Maker, words: Vec<u32>) -> Result<(), String> {
        self.tally.count_question(&words);
        let paired = maker.rng.below(PAIRS) == 0;
        let readable = words.len() <= MOST_WORDS && read(&words).is_ok();
        let pairing = Pairing::new(&mut maker.rng);
        let twin = (paired && readable).then(|| pairing.question(&words, &mut maker.rng));
        self.pairs += u64::from(twin.is_some());
        let full = full_reply(&words, &mut self.tally)?;
        for asked in maker.framed(&words, &full) {
            let answer = reply(&asked);
            self.write(&asked, &answer)?;
            if let Some(twin) = &twin {
                self.write_twin(&pairing, twin, &asked, &answer)?;
            }
        }
        Ok(())
    }

    /// What was written, in three lines.
    fn told(&self, seed: u64) -> String {
        let Tally { questions, held, .. } = self.tally;
        let twins = self.tally.twins + self.tally.letters.twins;
        let missing = match self.tally.missing().join(", ") {
            none if none.is_empty() => "none".to_string(),
            some => some,
        };
        format!(
            "oracle: {questions} questions of seed {seed}, {} frames; pairs of renamed twins with replies alike: {}\n\
             oracle: held to the original, string by string: {held}; strict, through a plain twin: {twins}\n\
             oracle: rules, kinds and codes not reached: {missing}",
            self.frames, self.pairs
        )
    }
}

/// The papers' cases and one of each large question.
fn first_questions() -> impl Iterator<Item = Vec<u32>> {
    CASES.iter().chain(LETTERS).map(|case| case.words.to_vec()).chain(all_large())
}

/// The first questions, then generated ones.
fn questions(
    maker: &mut Maker,
    count: u64,
    mut each: impl FnMut(&mut Maker, Vec<u32>) -> Result<(), String>,
) -> Result<(), String> {
    let mut first = first_questions();
    for _ in 0..count {
        let words = first.next().unwrap_or_else(|| maker.any_words());
        each(maker, words)?;
    }
    Ok(())
}

/// Writes the frames of this many questions to the standard output, before them broken ones of every length and the first
/// ones in full, and what they reached to the standard error.
pub fn frames(count: u64, seed: u64) -> Result<(), String> {
    let out = BufWriter::with_capacity(1 << 20, stdout().lock());
    let mut frames = Frames { out, tally: Tally::default(), frames: 0, pairs: 0 };
    for words in broken_at_every_length() {
        let asked = at_the_desk(&words);
        frames.write(&asked, &reply(&asked))?;
    }
    for words in first_questions() {
        let asked = Asked { room: MOST_ROOM, ..in_full(&words) };
        frames.write(&asked, &reply(&asked))?;
    }
    questions(&mut Maker::new(seed), count, |maker, words| frames.write_question(maker, words))?;
    frames.out.flush().map_err(|error| error.to_string())?;
    eprintln!("{}", frames.told(seed));
    Ok(())
}

/// Prints this many questions with their replies at the desk program's sizes, as recorded answers.
pub fn desk(count: u64, seed: u64) -> Result<(), String> {
    let mut out = BufWriter::new(stdout().lock());
    questions(&mut Maker::new(seed), count, |_, words| {
        let asked = at_the_desk(&words);
        writeln!(out, "{asked} | {}", reply(&asked)).map_err(|error| error.to_string())
    })?;
    out.flush().map_err(|error| error.to_string())
}
