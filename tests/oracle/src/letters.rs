// Strict parameters looked at a second time. Whether two types differ in bound letters alone is
// found by renaming here, so that nothing rests on the counted copy's translation.
use crate::asked::Reply;
use crate::decode::{error_types, Node};
use crate::make_types::replaced;
use crate::question::{Question, Shape, Term, Ty};
use crate::reading::Cursor;
use crate::recount::{applied, halves};

/// One more than any name of the type.
fn past(ty: &Ty) -> u32 {
    match ty {
        Ty::Int | Ty::Bool => 0,
        Ty::Var(a) | Ty::ETVar(a) => a + 1,
        Ty::Arrow(from, to) => past(from).max(past(to)),
        Ty::Forall(a, body) => past(body).max(a + 1),
    }
}

/// Whether the two are equal once both letters of each pair of Foralls are one new name.
/// No name of either is `new` or more.
fn equal_from(new: u32, one: &Ty, other: &Ty) -> bool {
    match (one, other) {
        (Ty::Arrow(a, b), Ty::Arrow(c, d)) => equal_from(new, a, c) && equal_from(new, b, d),
        (Ty::Forall(a, one), Ty::Forall(b, other)) => {
            let name = Ty::Var(new);
            equal_from(new + 1, &replaced(one, *a, &name), &replaced(other, *b, &name))
        }
        _ => one == other,
    }
}

/// Whether two types differ at most in the names that Foralls bind.
pub fn equal(one: &Ty, other: &Ty) -> bool {
    equal_from(past(one).max(past(other)), one, other)
}

/// A ChkLam's parameter: as the lambda has it, and as it is expected with the context applied.
fn compared(words: &[u32], node: &Node) -> Option<(Ty, Ty)> {
    let term = Cursor::from_place(words, node.place).term().ok()?;
    let Shape::Abs(_, written, _) = term.shape else { return None };
    Some((written, applied(&node.input, halves(&node.right).0).0))
}

/// The first parameters of a tree that are not equal, in the order of the run.
pub fn first_unequal(words: &[u32], node: &Node) -> Option<(Ty, Ty)> {
    let here = if node.rule == 19 { compared(words, node) } else { None };
    let here = here.filter(|(written, applied)| !equal(written, applied));
    here.or_else(|| node.children.iter().find_map(|child| first_unequal(words, child)))
}

/// What every ChkLam of a tree has compared.
pub fn all_compared(words: &[u32], node: &Node) -> Vec<(Ty, Ty)> {
    let here = if node.rule == 19 { compared(words, node) } else { None };
    let below = node.children.iter().flat_map(|child| all_compared(words, child));
    here.into_iter().chain(below).collect()
}

pub fn holds_forall(ty: &Ty) -> bool {
    match ty {
        Ty::Arrow(from, to) => holds_forall(from) || holds_forall(to),
        Ty::Forall(..) => true,
        _ => false,
    }
}

/// Whether a lambda of the expression has this parameter.
fn is_written(ty: &Ty, term: &Term) -> bool {
    matches!(&term.shape, Shape::Abs(_, written, _) if written == ty)
        || term.children().into_iter().any(|part| is_written(ty, part))
}

/// The two types that a 17 shows: not equal, and the first one as a lambda has it.
pub fn shown(question: &Question, reply: &Reply) -> Result<(Ty, Ty), String> {
    let types = error_types(&reply.report).map_err(|fault| format!("unreadable: {fault:?}"))?;
    let [Some(written), Some(applied)] = types else { return Err("  17 shows no types".into()) };
    if equal(&written, &applied) {
        return Err("  17's types differ in bound letters alone".to_string());
    }
    if !question.term.as_ref().is_some_and(|term| is_written(&written, term)) {
        return Err("  17's first type is no lambda's parameter".to_string());
    }
    Ok((written, applied))
}

/// The 17 that shows these types.
pub fn mismatch(written: &Ty, applied: &Ty, units: u32) -> Reply {
    let (left, right) = (written.words(), applied.words());
    let counts = [left.len() as u32, right.len() as u32];
    let report = [&counts[..1], &left, &counts[1..], &right].concat();
    Reply { length: report.len() as u32, report, ..Reply::bare(17, 0, units) }
}

/// The 17 that a strict question of kind 2 must have where its own lambda's parameter is not the
/// one expected. Only for runs that ended, since the application did then.
pub fn root_mismatch(question: &Question) -> Option<Reply> {
    let (true, 2) = (question.strict, question.kind) else { return None };
    let (Some(term), Some(Ty::Arrow(expected, _))) = (&question.term, &question.right) else {
        return None;
    };
    let Shape::Abs(_, written, _) = &term.shape else { return None };
    let (expected, calls) = applied(&question.context, expected);
    if equal(written, &expected) {
        return None;
    }
    let units = 1 + question.context.len() as u32 + calls as u32;
    Some(mismatch(written, &expected, units))
}
