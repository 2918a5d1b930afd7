// Large questions: the longest, the deepest, and those with vast reports.
use crate::large_letters::large_letters;
use crate::make_questions::Draft;
use crate::make_types::Maker;
use crate::question::Ty;
use crate::reply::MOST_WORDS;

/// The shortest question that of_length makes of either parity.
const LEAST: usize = 11;

/// `times` copies of `head`, then `middle`, then `times` copies of `tail`.
fn nested(times: usize, head: &[u32], middle: &[u32], tail: &[u32]) -> Vec<u32> {
    [head.repeat(times), middle.to_vec(), tail.repeat(times)].concat()
}

/// An arrow with this many leaves.
fn arrows(leaves: usize, leaf: &[u32]) -> Vec<u32> {
    [[&[5], leaf].concat().repeat(leaves - 1), leaf.to_vec()].concat()
}

/// A kind 7 question of nested expressions that fills the 2,048 words.
pub fn deepest(which: u32, mode: u32) -> Vec<u32> {
    let literal = [22, 1, 0];
    let mut draft = Draft::new(7, mode);
    draft.term = match which % 8 {
        0 => nested(1019, &[21], &literal, &[1]),
        1 => nested(1019, &[20, 1], &literal, &[]),
        2 => nested(679, &[18, 5, 1], &literal, &[]),
        3 => nested(400, &[26, 1, 22, 1, 0], &literal, &[]),
        4 => nested(509, &[17], &literal, &literal),
        5 => nested(339, &[25, 23, 1], &literal, &literal),
        6 => nested(1019, &[19], &literal, &[1]),
        _ => nested(400, &[24, 5, 22, 1, 0], &[16, 5], &[]),
    };
    draft.words()
}

/// A kind 4 question of deep types that fills the 2,048 words.
pub fn deepest_types(which: u32, mode: u32) -> Vec<u32> {
    let mut draft = Draft::new(4, mode);
    let ty = match which % 4 {
        0 => arrows(510, &[1]),
        1 => nested(510, &[5], &[1], &[1]),
        2 => nested(510, &[6, 1], &[1], &[]),
        _ => nested(254, &[6, 1, 5], &[3, 1], &[1]),
    };
    draft.left = ty.clone();
    draft.right = ty;
    draft.words()
}

/// A question of exactly this many words, most of them entries.
pub fn of_length(length: usize, mode: u32) -> Vec<u32> {
    let mut draft = Draft::new(4, mode);
    (draft.left, draft.right) = (vec![1], vec![1]);
    let mut rest = length - draft.words().len();
    if rest % 2 == 1 {
        draft.context.extend([35, 1, 1]);
        rest -= 3;
    }
    draft.context.extend([36, 1].repeat(rest / 2));
    draft.words()
}

/// A type substituted into `copies` x `copies` places, then named `lets` times:
/// every context of the tree then holds it, though the run is short.
pub fn vast(copies: usize, lets: u32, part: usize) -> Vec<u32> {
    let mut draft = Draft::new(1, 0);
    draft.context = [&[32, 5, 6, 1, 6, 2], &arrows(copies, &[3, 1])[..]].concat();
    draft.term = [24, 6, 19, 19, 16, 5].to_vec();
    draft.term.extend(arrows(copies, &[3, 2]));
    draft.term.extend(arrows(part, &[1]));
    for name in 0..lets {
        draft.term.extend([24, 7 + name, 16, 6]);
    }
    draft.term.extend([22, 0, 0]);
    draft.words()
}

/// One of each, for every run to start with.
pub fn all_large() -> Vec<Vec<u32>> {
    let mut all = vec![vast(45, 40, 700), vast(10, 10, 50)];
    for mode in 0..2 {
        all.extend((0..8).map(|which| deepest(which, mode)));
        all.extend((0..4).map(|which| deepest_types(which, mode)));
        all.extend([2047, 2048, 2049].map(|length| of_length(length, mode)));
    }
    all.extend(large_letters());
    all
}

/// Broken questions of every length, from none to two over the most: the deepest one cut there, and one whose last type is none.
pub fn broken_at_every_length() -> impl Iterator<Item = Vec<u32>> {
    let longest = [deepest(0, 0), vec![0; 8]].concat();
    let cut = move |length| longest[..length].to_vec();
    let last_broken = |length| {
        let mut words = of_length(length, 0);
        words[length - 1] = 77;
        words
    };
    (0..=MOST_WORDS + 2).map(cut).chain((LEAST..=MOST_WORDS + 2).map(last_broken))
}

impl Maker {
    pub fn large(&mut self) -> Vec<u32> {
        let (which, mode) = (self.rng.below(8), self.rng.below(2));
        match self.rng.below(7) {
            0 => deepest(which, mode),
            1 => deepest_types(which, mode),
            2 => of_length(self.rng.pick(&[2047, 2048, 2049]), mode),
            3 => vast(45, 40, 700),
            4 => {
                let mut all = large_letters();
                all.swap_remove(self.rng.index(all.len()))
            }
            5 => vast(4 + self.rng.index(20), self.rng.below(20), 10 + self.rng.index(300)),
            _ => {
                let size = 100 + self.rng.below(300);
                let mut draft = Draft::new(7, mode);
                self.typed_term(&Ty::Int, &mut Vec::new(), size, &mut draft.term);
                draft.words()
            }
        }
    }
}
