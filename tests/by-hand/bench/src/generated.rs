// Well-typed questions of growing size: formulas as a house would write them, with ever more lets, ifs and arithmetic.
use crate::cases::{Case, MOST_BUDGET, MOST_ROOM};
use crate::contenders::{ask_plain, Slices};
use crate::rng::Rng;

/// The house's inputs.
const HOUSE: [&[u32]; 5] = [
    &[32, 1, 1],                // ahead : Int
    &[32, 2, 3, 1],             // open : Open
    &[32, 3, 5, 3, 1, 1],       // heads : Open -> Int
    &[32, 4, 6, 2, 5, 3, 2, 1], // seen : forall P. P -> Int
    &[32, 5, 3, 3],             // signed_in : SignedIn
];
const FIRST_BOUND: u32 = 6;

/// Units that the questions are to have, each met within a twenty-fifth, and how many for each.
const LEAST: u32 = 50;
const STEP: u32 = 250;
const MOST: u32 = 8_000;
const EACH: usize = 3;

struct Writer {
    rng: Rng,
    /// The Ints in scope.
    ints: Vec<u32>,
    out: Vec<u32>,
}

impl Writer {
    fn int(&mut self, size: u32) {
        if size <= 1 {
            return self.small_int();
        }
        match self.rng.below(8) {
            0..=4 => {
                let op = 1 + self.rng.below(4);
                self.out.extend([26, op]);
                self.int(size / 2);
                self.int(size - size / 2);
            }
            5 => {
                self.out.push(25);
                self.bool(size / 3);
                self.int(size / 3);
                self.int(size / 3);
            }
            6 => {
                self.out.push(21);
                self.int(size - 1);
                self.out.push(1);
            }
            _ => self.small_int(),
        }
    }

    /// A number, a variable, heads open, or seen [Open] open.
    fn small_int(&mut self) {
        match self.rng.below(6) {
            0..=1 => self.out.extend([22, self.rng.below(100), 0]),
            2..=3 => {
                let x = self.rng.pick(&self.ints);
                self.out.extend([16, x]);
            }
            4 => self.out.extend([17, 16, 3, 16, 2]),
            _ => self.out.extend([17, 19, 16, 4, 3, 1, 16, 2]),
        }
    }

    fn bool(&mut self, size: u32) {
        let half = size / 2;
        match self.rng.below(4) {
            0 if half > 0 => {
                let op = 5 + self.rng.below(2);
                self.out.extend([26, op]);
                self.bool(half);
                self.bool(half);
            }
            1..=2 => {
                let op = 7 + self.rng.below(6);
                self.out.extend([26, op]);
                self.int(half);
                self.int(half);
            }
            _ => self.out.extend([23, self.rng.below(2)]),
        }
    }

    /// Lets and lambdas, each the last thing in the one before: the Rust forgets the inputs after them.
    fn formula(&mut self, binders: u32, size: u32) {
        for x in FIRST_BOUND..FIRST_BOUND + binders {
            if self.rng.percent(85) {
                self.out.extend([24, x]);
                self.int(size);
            } else {
                self.out.extend([18, x, 1]);
            }
            self.ints.push(x);
        }
        self.int(size);
    }
}

fn question(seed: u64, binders: u32, size: u32) -> Vec<u32> {
    let mut writer = Writer { rng: Rng::new(seed), ints: vec![1], out: Vec::new() };
    writer.formula(binders, size);
    let context = HOUSE.concat();
    let mut words = vec![1, 0, context.len() as u32];
    words.extend(context);
    words.push(writer.out.len() as u32);
    words.extend(writer.out);
    words.extend([0, 0]);
    words
}

/// Questions in the order of the units that they are to have.
pub fn questions() -> Vec<Case> {
    let mut slices = Slices::new();
    let mut dice = Rng::new(7);
    let mut found = Vec::new();
    for target in std::iter::once(LEAST).chain((STEP..=MOST).step_by(STEP as usize)) {
        let wanted = found.len() + EACH;
        while found.len() < wanted {
            let binders = dice.below(2 + target / 400);
            let size = 1 + dice.below(2 + target / 50);
            let words = question(u64::from(dice.any()), binders, size);
            let case = Case::new(words, MOST_BUDGET, MOST_ROOM);
            let [code, _, _, units] = ask_plain(&case, &mut slices);
            if code == 0 && units.abs_diff(target) <= target / 25 {
                found.push(case);
            }
        }
    }
    found
}
