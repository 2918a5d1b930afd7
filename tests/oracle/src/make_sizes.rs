// Budgets and buffer lengths to ask a question with, most of them at an edge.
use crate::asked::{Asked, Reply};
use crate::make_types::Maker;
use crate::reply::{needed_work, MOST_BUDGET};

/// The longest report that is built.
pub const WHOLE_ROOM: u64 = 4_000_000;

/// The question with all the budget and room there is.
pub fn in_full(words: &[u32]) -> Asked {
    let work = needed_work(MOST_BUDGET);
    Asked { budget: MOST_BUDGET, work, room: WHOLE_ROOM, words: words.to_vec() }
}

impl Maker {
    /// The question asked anew, at the edges of what its full reply needed.
    pub fn resized(&mut self, words: Vec<u32>, full: &Reply) -> Asked {
        let budget = self.budget(full.units);
        let work = self.work(budget);
        let room = self.room(full);
        Asked { budget, work, room, words }
    }

    fn budget(&mut self, units: u32) -> u32 {
        match self.rng.below(24) {
            0 => 0,
            1 => 1,
            2 => MOST_BUDGET + 1,
            3 => self.rng.pick(&[u32::MAX, 100_000]),
            4..=5 => 2 + self.rng.below(60),
            6..=8 => units,
            9..=11 => units.saturating_sub(1),
            12..=14 => 384,
            _ => MOST_BUDGET,
        }
    }

    fn work(&mut self, budget: u32) -> u64 {
        let exact = needed_work(budget);
        match self.rng.below(20) {
            0 => exact - 1,
            1 => u64::from(self.rng.below(5_000)),
            2..=4 => exact + 1 + u64::from(self.rng.below(100)),
            5 => 16_384,
            _ => exact,
        }
    }

    fn room(&mut self, full: &Reply) -> u64 {
        let length = u64::from(full.length);
        match self.rng.below(16) {
            0 => 0,
            _ if length > WHOLE_ROOM => 4_096,
            1..=2 => length.saturating_sub(1),
            3..=4 => length,
            5 => length + 1,
            6..=7 => length / 2,
            8 => WHOLE_ROOM,
            _ => 4_096,
        }
    }
}

/// The reply that the full one leaves for other sizes.
pub fn expected(asked: &Asked, full: &Reply) -> Reply {
    if asked.budget == 0 || asked.budget > MOST_BUDGET {
        Reply::bare(1, 0, 0)
    } else if asked.work < needed_work(asked.budget) {
        Reply::bare(2, 0, 0)
    } else if (3..=5).contains(&full.code) {
        full.clone()
    } else if full.code == 6 || full.units > asked.budget {
        Reply::bare(6, 0, asked.budget)
    } else if u64::from(full.length) > asked.room {
        Reply { length: full.length, ..Reply::bare(7, 0, full.units) }
    } else {
        full.clone()
    }
}
