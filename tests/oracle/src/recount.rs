// Counts a reply's work again from its report alone, by document 01's rules,
// and looks at the two places where strict mode differs.
use crate::asked::Reply;
use crate::decode::{Node, Report};
use crate::letters::equal;
use crate::question::{Bind, Question, Shape, Ty};
use crate::reading::Cursor;

/// A type with the context applied to it, and the calls that this takes.
pub fn applied(context: &[Bind], ty: &Ty) -> (Ty, u64) {
    match ty {
        Ty::ETVar(a) => {
            let solution = context.iter().find_map(|bind| match bind {
                Bind::Solved(name, held) if name == a => Some(held),
                _ => None,
            });
            let (held, calls) = solution.map_or((ty.clone(), 0), |held| applied(context, held));
            (held, calls + 1)
        }
        Ty::Arrow(from, to) => {
            let (from, from_calls) = applied(context, from);
            let (to, to_calls) = applied(context, to);
            (Ty::arrow(from, to), from_calls + to_calls + 1)
        }
        Ty::Forall(a, body) => {
            let (body, calls) = applied(context, body);
            (Ty::forall(*a, body), calls + 1)
        }
        Ty::Int | Ty::Bool | Ty::Var(_) => (ty.clone(), 1),
    }
}

/// The calls that putting something in for a name takes.
fn substitution_calls(name: u32, ty: &Ty) -> u64 {
    match ty {
        Ty::Arrow(from, to) => substitution_calls(name, from) + substitution_calls(name, to) + 1,
        Ty::Forall(a, body) if *a != name => substitution_calls(name, body) + 1,
        _ => 1,
    }
}

fn opening_calls(ty: &Option<Ty>) -> u64 {
    match ty {
        Some(Ty::Forall(a, body)) => substitution_calls(*a, body),
        _ => panic!("this rule opens a Forall"),
    }
}

fn application_calls(context: &[Bind], ty: &Option<Ty>) -> u64 {
    applied(context, ty.as_ref().expect("a type to apply the context to")).1
}

pub fn halves(ty: &Option<Ty>) -> (&Ty, &Ty) {
    match ty {
        Some(Ty::Arrow(from, to)) => (from, to),
        _ => panic!("this rule takes an Arrow apart"),
    }
}

/// Application and substitution within one node's own rule.
fn own_calls(node: &Node, strict: bool) -> u64 {
    let children = &node.children;
    let inferred = |at: usize| application_calls(&children[at].output, &children[at].result);
    match node.rule {
        5 | 13 => inferred(0),
        7 if strict => application_calls(&children[2].output, &children[1].result) + inferred(2),
        14 => opening_calls(&children[0].result),
        19 if strict => applied(&node.input, halves(&node.right).0).1,
        21 => inferred(0) + application_calls(&children[0].output, &node.right),
        27 | 37 => opening_calls(&node.left),
        32 => applied(&children[0].output, halves(&node.right).1).1,
        36 => applied(&children[0].output, halves(&node.left).1).1,
        _ => 0,
    }
}

fn tree_units(node: &Node, strict: bool) -> u64 {
    let entries = (node.input.len() + node.output.len()) as u64;
    let children = node.children.iter().map(|child| tree_units(child, strict));
    1 + entries + own_calls(node, strict) + children.sum::<u64>()
}

/// Whether strict mode's two rules did what document 01 says, here and below.
fn strict_rules_hold(words: &[u32], node: &Node) -> bool {
    let here = match node.rule {
        7 => {
            let [_, then, other, unify] = &node.children[..] else { return false };
            let apply = |ty: &Option<Ty>| ty.as_ref().map(|ty| applied(&other.output, ty).0);
            unify.left == apply(&then.result)
                && unify.right == apply(&other.result)
                && node.result == then.result
        }
        19 => {
            let expected = halves(&node.right).0;
            let term = Cursor::from_place(words, node.place).term();
            let Ok(Shape::Abs(x, written, _)) = term.map(|term| term.shape) else { return false };
            equal(&written, &applied(&node.input, expected).0)
                && node.children[0].input.last() == Some(&Bind::Var(x, expected.clone()))
        }
        _ => true,
    };
    here && node.children.iter().all(|child| strict_rules_hold(words, child))
}

/// Holds a reply with code 0 to its own tree: units, kind 7's type, strict rules.
pub fn hold_units(
    words: &[u32],
    question: &Question,
    reply: &Reply,
    told: &Report,
) -> Result<(), String> {
    let mut units = tree_units(&told.tree, question.strict);
    if question.kind == 7 {
        let result = told.tree.result.as_ref().expect("infer's result");
        let (resolved, calls) = applied(&told.context, result);
        units += calls;
        if told.ty != Some(resolved) {
            return Err("  kind 7's type is not the root's, resolved".to_string());
        }
    }
    if units != u64::from(reply.units) {
        return Err(format!("  the tree makes {units} units, the reply says {}", reply.units));
    }
    if question.strict && !strict_rules_hold(words, &told.tree) {
        return Err("  a strict rule does not hold".to_string());
    }
    Ok(())
}
