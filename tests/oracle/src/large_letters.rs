// Large questions for strict mode's comparison of parameters (order 2): deep, wide, and shared.
use crate::make_questions::Draft;
use crate::question::Ty;

/// The type under a Forall for each letter, the first one outermost.
fn under(letters: impl DoubleEndedIterator<Item = u32>, leaf: Ty) -> Ty {
    letters.rev().fold(leaf, |body, letter| Ty::forall(letter, body))
}

/// An arrow of this many leaves, all of one letter.
fn wide(leaves: u32, letter: u32) -> Ty {
    (1..leaves).fold(Ty::Var(letter), |ty, _| Ty::arrow(Ty::Var(letter), ty))
}

/// The strict question of kind 2 with this parameter, and this one expected.
fn lambda_against(written: &Ty, expected: Ty) -> Draft {
    let mut draft = Draft::new(2, 1);
    draft.term = [&[18, 5], &written.words()[..], &[22, 1, 0]].concat();
    draft.right = Ty::arrow(expected, Ty::Int).words();
    draft
}

/// As many Foralls as the words allow, over one leaf or many.
fn deep() -> Vec<(Ty, Ty)> {
    let (low, high) = (|| 1..=500, || 501..=1_000);
    let one = |letter| std::iter::repeat_n(letter, 500);
    vec![
        (under(low(), Ty::Var(1)), under(high(), Ty::Var(501))),
        // the outermost against the next, and against a free one
        (under(low(), Ty::Var(1)), under(high(), Ty::Var(502))),
        (under(low(), Ty::Var(501)), under(high(), Ty::Var(501))),
        (under(low(), Ty::Var(1)), under(low().rev(), Ty::Var(500))),
        // all of one letter, of which the innermost binds
        (under(one(1), Ty::Var(1)), under(one(2), Ty::Var(2))),
        (under(one(1), Ty::Var(1)), under(low().rev(), Ty::Var(1))),
        (under(one(1), Ty::Var(1)), under(low(), Ty::Var(1))),
        (Ty::forall(1, wide(300, 1)), Ty::forall(2, wide(300, 2))),
        (Ty::forall(1, wide(300, 1)), Ty::forall(2, wide(300, 1))),
        (under(1..=190, wide(190, 1)), under(191..=380, wide(190, 191))),
    ]
}

/// A parameter that is written in full, and expected as an unknown whose solutions double it.
fn shared(last: Ty) -> Draft {
    let half = (0..7).fold(Ty::forall(2, Ty::Var(2)), |ty, _| Ty::arrow(ty.clone(), ty));
    let mut written = half.clone();
    let mut rightmost = &mut written;
    while let Ty::Arrow(_, to) = rightmost {
        rightmost = to;
    }
    *rightmost = last;
    let mut draft = lambda_against(&Ty::arrow(half, written), Ty::ETVar(1));
    for name in 1..=8 {
        draft.context.extend([35, name, 5, 4, name + 1, 4, name + 1]);
    }
    draft.context.extend([35, 9, 6, 1, 3, 1]);
    draft
}

/// One of each; the shared one with its last leaf in other letters, and not the same.
pub fn large_letters() -> Vec<Vec<u32>> {
    let deep = deep().into_iter().map(|(written, expected)| lambda_against(&written, expected));
    let last = [Ty::forall(3, Ty::Var(3)), Ty::forall(3, Ty::Var(2))];
    deep.chain(last.map(shared)).map(|draft| draft.words()).collect()
}
