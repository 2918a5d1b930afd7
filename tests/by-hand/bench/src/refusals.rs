// Refusals: damaged questions, type errors, budgets that are spent, reports without room.
use crate::cases::{Case, Class, MOST_BUDGET, MOST_ROOM};
use crate::contenders::{ask_plain, Slices};
use crate::make_types::Maker;

const EACH: usize = 64;

pub fn classes(generated: &[Case]) -> Vec<Class> {
    let (damaged, errors) = damaged(generated);
    vec![
        Class::new("refused: BadShape, ReservedName", damaged),
        Class::new("refused: type errors", errors),
        Class::new("refused: Budget", spent(generated)),
        Class::new("refused: NoRoom", without_room(generated)),
    ]
}

/// Questions with a word changed, dropped or put in: those that can't be read, and those that can but have no type.
fn damaged(generated: &[Case]) -> (Vec<Case>, Vec<Case>) {
    let mut slices = Slices::new();
    let mut maker = Maker::new(8);
    let (mut damaged, mut errors) = (Vec::new(), Vec::new());
    while damaged.len() < EACH || errors.len() < EACH {
        let mut words = generated[maker.rng.index(generated.len())].words.clone();
        maker.damage(&mut words);
        let case = Case::new(words, MOST_BUDGET, MOST_ROOM);
        match ask_plain(&case, &mut slices)[0] {
            4 | 5 if damaged.len() < EACH => damaged.push(case),
            11..=17 if errors.len() < EACH && case.words[1] == 0 => errors.push(case),
            _ => (),
        }
    }
    (damaged, errors)
}

/// Every question at half of the units that it needs, and a solution that leads back to itself.
fn spent(generated: &[Case]) -> Vec<Case> {
    let mut slices = Slices::new();
    let mut halved = |case: &Case| {
        let units = ask_plain(case, &mut slices)[3];
        Case::without_original(case.words.clone(), units / 2, MOST_ROOM)
    };
    let mut cases: Vec<Case> = generated.iter().map(&mut halved).collect();
    let ring = vec![2, 0, 4, 35, 1, 4, 1, 3, 22, 1, 0, 0, 2, 4, 1];
    cases.push(Case::without_original(ring, MOST_BUDGET, MOST_ROOM));
    cases
}

/// Every question in a report slice that is one word too short.
fn without_room(generated: &[Case]) -> Vec<Case> {
    let mut slices = Slices::new();
    let mut cramped = |case: &Case| {
        let length = ask_plain(case, &mut slices)[2] as usize;
        Case::without_original(case.words.clone(), MOST_BUDGET, length - 1)
    };
    generated.iter().map(&mut cramped).collect()
}
