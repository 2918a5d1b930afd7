// Damaged questions, and words that were never a question.
use crate::make_types::Maker;
use crate::question::FIRST_FRESH;

impl Maker {
    fn odd_word(&mut self) -> u32 {
        match self.rng.below(10) {
            0 => u32::MAX,
            1..=2 => FIRST_FRESH,
            3 => FIRST_FRESH - 1,
            4 => FIRST_FRESH + self.rng.below(1000),
            5 => self.rng.any(),
            _ => self.rng.below(40),
        }
    }

    /// One word changed, dropped, put in, or the end cut off.
    pub fn damage(&mut self, words: &mut Vec<u32>) {
        let at = self.rng.index(words.len());
        match self.rng.below(8) {
            0..=1 => words[at] = self.odd_word(),
            2 => words[at] = words[at].wrapping_add(1),
            3 => words[at] = words[at].wrapping_sub(1),
            4 => drop(words.remove(at)),
            5 => words.insert(at, self.odd_word()),
            6 => words.truncate(at),
            _ => self.change_count(words),
        }
    }

    /// Another count for one of the four sections.
    fn change_count(&mut self, words: &mut [u32]) {
        let mut at = 2;
        for _ in 0..self.rng.below(4) {
            let next = at + 1 + words.get(at).map_or(0, |count| *count as usize);
            if next < words.len() {
                at = next;
            }
        }
        if let Some(count) = words.get_mut(at) {
            *count = match self.rng.below(6) {
                0 => 0,
                1 => count.wrapping_add(2),
                2 => count.wrapping_add(3),
                3 => count.wrapping_sub(1),
                4 => u32::MAX,
                _ => count.wrapping_add(1),
            };
        }
    }

    pub fn raw(&mut self) -> Vec<u32> {
        let length = self.rng.below(24);
        let most = self.rng.pick(&[3, 8, 40, u32::MAX]);
        let mut words: Vec<u32> = (0..length).map(|_| self.rng.below(most)).collect();
        if length > 2 && self.rng.percent(60) {
            words[0] = 1 + self.rng.below(7);
            words[1] = self.rng.below(2);
        }
        words
    }
}
