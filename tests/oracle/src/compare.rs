// Generates questions and holds each reply to the original's, to its own tree,
// and to the reply at other sizes.
use crate::asked::Reply;
use crate::cases;
use crate::decode::report;
use crate::letters::{all_compared, first_unequal, holds_forall, mismatch, root_mismatch, shown};
use crate::make_large::all_large;
use crate::make_sizes::{expected, in_full};
use crate::make_types::Maker;
use crate::places::hold_places;
use crate::question::Ty;
use crate::reading::read;
use crate::recount::hold_units;
use crate::reply::{reply, MOST_WORDS};
use crate::strings::hold;
use crate::tally::{rules_of, Tally};

/// Nodes times words of the question, past which strings are not compared.
const MOST_TEXT: usize = 20_000_000;

impl Maker {
    /// The words of one question of any family.
    pub fn any_words(&mut self) -> Vec<u32> {
        match self.rng.below(2_000) {
            0 => self.large(),
            1..=240 => {
                let mut words = self.question().words();
                self.damage(&mut words);
                words
            }
            241..=300 => self.raw(),
            301..=600 => self.letters(),
            _ => self.question().words(),
        }
    }
}

/// Holds a plain question's full reply to the original, where it can be asked.
fn hold_to_original(words: &[u32], full: &Reply, tally: &mut Tally) -> Result<(), String> {
    if words.len() > MOST_WORDS {
        return Ok(());
    }
    let Ok(question) = read(words) else { return Ok(()) };
    if question.strict {
        return Ok(());
    }
    if full.code == 6 {
        tally.unfinished += 1;
        return Ok(());
    }
    if full.code == 7 || rules_of(full).len() * words.len() > MOST_TEXT {
        tally.too_large += 1;
        return Ok(());
    }
    tally.held += 1;
    hold(words, &question, full)
}

/// Holds a strict question's reply to that of its plain twin, where the twin's tree
/// has no InfIf: the same, or what its ChkLams make of it. These are charged for
/// applications, so that 6 may come instead.
fn hold_to_plain_twin(words: &[u32], full: &Reply, tally: &mut Tally) -> Result<(), String> {
    if words.get(1) != Some(&1) || words.len() > MOST_WORDS {
        return Ok(());
    }
    let mut twin = words.to_vec();
    twin[1] = 0;
    let plain = reply(&in_full(&twin));
    let rules = rules_of(&plain);
    if plain.code != 0 || rules.contains(&7) {
        return Ok(());
    }
    let wanted = if !rules.contains(&19) {
        tally.twins += 1;
        plain.clone()
    } else if full.code != 6 {
        tally.letters.twins += 1;
        after_comparing(&twin, &plain, full.units)?
    } else {
        return Ok(());
    };
    if wanted != *full {
        return Err(format!("  strict {full}\n  plain  {plain}\n  wanted {wanted}"));
    }
    let mut unseen = Tally::default();
    hold_to_original(&twin, &plain, &mut unseen)
}

/// The strict reply that an accepted plain one leaves: its own, with other units, or 17 for
/// the first parameters that differ.
fn after_comparing(words: &[u32], plain: &Reply, units: u32) -> Result<Reply, String> {
    let told = report(&plain.report).map_err(|fault| format!("report unreadable: {fault:?}"))?;
    Ok(match first_unequal(words, &told.tree) {
        Some((written, applied)) => mismatch(&written, &applied, units),
        None => Reply { units, ..plain.clone() },
    })
}

/// Holds what strict mode compares: the types of a 17 differ, and it is the reply where the
/// question's own lambda has not the parameter expected.
fn hold_parameters(words: &[u32], full: &Reply, tally: &mut Tally) -> Result<(), String> {
    if (3..=6).contains(&full.code) {
        return Ok(());
    }
    let question = read(words).map_err(|fault| format!("  judged unread: {fault:?}"))?;
    if full.code == 17 {
        let (written, applied) = shown(&question, full)?;
        tally.letters.refused += u64::from(holds_forall(&written) && holds_forall(&applied));
    }
    let Some(wanted) = root_mismatch(&question) else { return Ok(()) };
    tally.letters.worked_out += 1;
    if wanted != *full {
        return Err(format!("  the parameter differs\n  got    {full}\n  wanted {wanted}"));
    }
    Ok(())
}

/// Holds the units and places of a success to its own tree.
fn hold_to_own_tree(words: &[u32], full: &Reply, tally: &mut Tally) -> Result<(), String> {
    let (0, Ok(question)) = (full.code, read(words)) else { return Ok(()) };
    let told = report(&full.report).map_err(|fault| format!("report unreadable: {fault:?}"))?;
    tally.recounted += 1;
    hold_units(words, &question, full, &told)?;
    if question.strict {
        let other_letters = |(written, applied): &(Ty, Ty)| written != applied;
        let accepted = all_compared(words, &told.tree).into_iter().filter(other_letters).count();
        tally.letters.accepted += accepted as u64;
    }
    hold_places(words, &question, &told.tree)
}

/// Asks a question with all there is, and holds the reply in every way.
pub fn full_reply(words: &[u32], tally: &mut Tally) -> Result<Reply, String> {
    let asked = in_full(words);
    let full = reply(&asked);
    hold_to_original(words, &full, tally)
        .and_then(|()| hold_to_own_tree(words, &full, tally))
        .and_then(|()| hold_parameters(words, &full, tally))
        .and_then(|()| hold_to_plain_twin(words, &full, tally))
        .map_err(|reason| format!("{asked}\n{reason}"))?;
    Ok(full)
}

/// Asks a question in full and at other sizes, and holds both replies.
fn compare_one(maker: &mut Maker, words: Vec<u32>, tally: &mut Tally) -> Result<(), String> {
    tally.count_question(&words);
    let full = full_reply(&words, tally)?;
    tally.count_reply(&words, &full);
    let asked = maker.resized(words, &full);
    let answer = reply(&asked);
    tally.count_reply(&asked.words, &answer);
    let wanted = expected(&asked, &full);
    if answer != wanted {
        return Err(format!("{asked}\n  got    {answer}\n  wanted {wanted}"));
    }
    Ok(())
}

/// At least this many questions must reach every rule and code.
const ENOUGH: u64 = 20_000;

pub fn compare(count: u64, seed: u64) -> Result<(), String> {
    cases::hold_all()?;
    let mut maker = Maker::new(seed);
    let mut tally = Tally::default();
    for words in all_large() {
        compare_one(&mut maker, words, &mut tally)?;
    }
    while tally.held < count {
        let words = maker.any_words();
        compare_one(&mut maker, words, &mut tally)?;
    }
    print!("{tally}{}", tally.letters);
    let missing = [tally.missing(), tally.letters.missing(tally.held)].concat();
    if count >= ENOUGH && !missing.is_empty() {
        return Err(format!("not reached: {}", missing.join(", ")));
    }
    println!("{} passed, 0 failed", tally.questions);
    Ok(())
}
