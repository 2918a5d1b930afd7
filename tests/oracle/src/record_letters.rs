// Chooses questions of the letters family for recorded answers (order 2).
use crate::asked::{Asked, Reply};
use crate::cases::LETTERS;
use crate::decode::{error_types, report};
use crate::frames::at_the_desk;
use crate::letters::all_compared;
use crate::make_sizes::in_full;
use crate::make_types::Maker;
use crate::question::Ty;
use crate::record::{moderate, run_features, Chosen};
use crate::reply::{needed_work, reply};

/// How many questions are looked at for what they show.
const LOOKED_AT: u32 = 20_000;

/// Lines of a hundred: plain ones, 17s, accepted in other letters, all others.
const SHARES: [usize; 4] = [8, 40, 40, 12];

/// The types that a strict question's reply has compared.
fn pairs(words: &[u32], answer: &Reply) -> Vec<(Ty, Ty)> {
    match (words[1], answer.code) {
        (1, 0) => {
            let told = report(&answer.report).expect("our own report can be read");
            all_compared(words, &told.tree)
        }
        (1, 17) => match error_types(&answer.report) {
            Ok([Some(written), Some(applied)]) => vec![(written, applied)],
            _ => panic!("17 shows two types"),
        },
        _ => vec![],
    }
}

/// Which of SHARES a line is counted under.
fn share(asked: &Asked, answer: &Reply) -> usize {
    let other_letters = |(written, applied): &(Ty, Ty)| written != applied;
    match (asked.words[1], answer.code) {
        (0, _) => 0,
        (_, 17) => 1,
        (_, 0) if pairs(&asked.words, answer).iter().any(other_letters) => 2,
        _ => 3,
    }
}

/// What a part of a type is, and how far out the Forall of a Var is.
fn standing(ty: &Ty, letters: &[u32]) -> String {
    match ty {
        Ty::Int | Ty::Bool => "constant".to_string(),
        Ty::Var(a) => match letters.iter().rev().position(|letter| letter == a) {
            Some(away) => format!("bound {}", away.min(3)),
            None => "free".to_string(),
        },
        Ty::ETVar(a) => format!("unknown, also a letter: {}", letters.contains(a)),
        Ty::Arrow(..) => "arrow".to_string(),
        Ty::Forall(..) => "forall".to_string(),
    }
}

/// How each part of one type stands to the other's, and whether their words are the same.
fn standings(one: &Ty, other: &Ty, letters: [&[u32]; 2], out: &mut Vec<String>) {
    match (one, other) {
        (Ty::Arrow(a, b), Ty::Arrow(c, d)) => {
            standings(a, c, letters, out);
            standings(b, d, letters, out);
        }
        (Ty::Forall(a, one), Ty::Forall(b, other)) => {
            let hidden = [letters[0].contains(a), letters[1].contains(b)];
            out.push(format!("foralls, one letter {}, hiding {hidden:?}", a == b));
            let [ours, theirs] = [[letters[0], &[*a]].concat(), [letters[1], &[*b]].concat()];
            standings(one, other, [&ours, &theirs], out);
        }
        _ => {
            let [one_is, other_is] = [standing(one, letters[0]), standing(other, letters[1])];
            out.push(format!("{one_is} and {other_is}, the same {}", one == other));
        }
    }
}

fn features(asked: &Asked, answer: &Reply, full: &Reply) -> Vec<String> {
    if (1..=3).contains(&answer.code) {
        return vec![format!("code {}", answer.code)];
    }
    let mut all = run_features(asked, answer, full);
    for (written, applied) in pairs(&asked.words, answer) {
        let mut found = Vec::new();
        standings(&written, &applied, [&[], &[]], &mut found);
        all.extend(found.into_iter().map(|feature| format!("{} {feature}", answer.code)));
    }
    all
}

/// A case at the desk's sizes, at exactly what it needs, and at one unit and one word less.
fn at_its_edges(words: &[u32]) -> [Asked; 4] {
    let full = reply(&in_full(words));
    let sized = |budget: u32, room: u32| {
        let work = needed_work(budget);
        Asked { budget, work, room: u64::from(room), words: words.to_vec() }
    };
    let (units, length) = (full.units, full.length);
    [at_the_desk(words), sized(units, length), sized(units - 1, length), sized(units, length - 1)]
}

/// The lines chosen so far, and how many more each share has room for.
struct Shared {
    chosen: Chosen,
    room: [usize; 4],
}

impl Shared {
    fn take(&mut self, asked: Asked, answer: Reply) {
        let features = features(&asked, &answer, &reply(&in_full(&asked.words)));
        let own = share(&asked, &answer);
        self.room[own] = self.room[own].saturating_sub(1);
        self.chosen.take(asked, answer, features);
    }

    /// Takes a line that its share has room for, if it shows something new or any will do.
    fn offer(&mut self, asked: Asked, any: bool) {
        let answer = reply(&asked);
        let fits = moderate(&asked, &answer) && self.room[share(&asked, &answer)] > 0;
        if !fits || self.chosen.has(&asked) {
            return;
        }
        let features = features(&asked, &answer, &reply(&in_full(&asked.words)));
        if any || self.chosen.shows_more(&features) {
            self.take(asked, answer);
        }
    }
}

/// A generated question, most at the desk's sizes.
fn generated(maker: &mut Maker) -> Asked {
    let words = maker.letters();
    if maker.rng.percent(85) {
        return at_the_desk(&words);
    }
    let full = reply(&in_full(&words));
    let asked = maker.resized(words, &full);
    Asked { room: asked.room.min(4_096), ..asked }
}

/// The cases first, then what shows something new, then others until the shares are full.
pub fn choose_letters(count: usize, seed: u64) -> Chosen {
    let room = SHARES.map(|share| share * count / 100);
    let mut shared = Shared { chosen: Chosen::default(), room };
    for asked in LETTERS.iter().flat_map(|case| at_its_edges(case.words)) {
        let answer = reply(&asked);
        shared.take(asked, answer);
    }
    let mut maker = Maker::new(seed);
    for _ in 0..LOOKED_AT {
        shared.offer(generated(&mut maker), false);
    }
    while shared.room.iter().any(|room| *room > 0) {
        shared.offer(generated(&mut maker), true);
    }
    shared.chosen
}
