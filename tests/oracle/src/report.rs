// The report's words, and their number without the words.
use std::collections::HashMap;

use counted::ast::Type;
use counted::errors::TypeError;
use counted::meter::Judged;
use counted::typecheck::{Context, Entry, InferenceTree};

use crate::convert::name_number;
use crate::run::Found;

/// Rules in document 01's order; a rule's number is its index plus 1.
#[rustfmt::skip]
pub const RULES: [&str; 37] = [
    "InfVar", "InfLitInt", "InfLitBool", "InfLam", "InfApp", "InfLet", "InfIf", "InfArith",
    "InfBool", "InfCmp", "InfEq", "InfAnn", "InfTAbs", "InfTApp", "InfAppArr", "InfAppETVar",
    "ChkLitInt", "ChkLitBool", "ChkLam", "ChkAll", "ChkSub", "SubRefl", "SubReflTVar",
    "SubReflETVar", "SubArr", "SubAllR", "SubAllL", "SubInstL", "SubInstR", "InstLSolve",
    "InstLReach", "InstLArr", "InstLAllR", "InstRSolve", "InstRReach", "InstRArr", "InstRAllL",
];

fn rule_number(rule: &str) -> u32 {
    let index = RULES.iter().position(|known| *known == rule);
    index.expect("one of document 01's rules") as u32 + 1
}

/// Numbers of words. A shared part of a type is measured once: a type may have
/// millions of words, and stand in thousands of contexts.
#[derive(Default)]
pub struct Lengths {
    known: HashMap<*const Type, u64>,
}

impl Lengths {
    fn part(&mut self, ty: &Type) -> u64 {
        if !matches!(ty, Type::Arrow(..) | Type::Forall(..)) {
            return self.ty(ty);
        }
        if let Some(length) = self.known.get(&(ty as *const Type)) {
            return *length;
        }
        let length = self.ty(ty);
        self.known.insert(ty, length);
        length
    }

    fn ty(&mut self, ty: &Type) -> u64 {
        match ty {
            Type::Int | Type::Bool => 1,
            Type::Var(_) | Type::ETVar(_) => 2,
            Type::Arrow(from, to) => 1 + self.part(from) + self.part(to),
            Type::Forall(_, body) => 2 + self.part(body),
        }
    }

    fn type_section(&mut self, ty: Option<&Type>) -> u64 {
        1 + ty.map_or(0, |ty| self.ty(ty))
    }

    fn context_section(&mut self, context: &Context) -> u64 {
        let entry = |e: &Entry| match e {
            Entry::VarBnd(_, ty) | Entry::SETVarBnd(_, ty) => 2 + self.ty(ty),
            Entry::TVarBnd(_) | Entry::ETVarBnd(_) | Entry::Mark(_) => 2,
        };
        1 + context.0.iter().map(entry).sum::<u64>()
    }

    fn tree(&mut self, tree: &InferenceTree) -> u64 {
        let judged = judged(tree);
        let own = 3
            + self.context_section(&judged.input)
            + self.type_section(judged.left.as_ref())
            + self.type_section(judged.right.as_ref())
            + self.context_section(&judged.output)
            + self.type_section(judged.result.as_ref());
        own + tree.children.iter().map(|child| self.tree(child)).sum::<u64>()
    }

    pub fn found(&mut self, found: &Found) -> u64 {
        let tree = 1 + self.tree(&found.tree);
        self.type_section(found.ty.as_ref()) + self.context_section(&found.context) + tree
    }

    pub fn sections(&mut self, types: [Option<&Type>; 2]) -> u64 {
        types.into_iter().map(|ty| self.type_section(ty)).sum()
    }
}

fn judged(tree: &InferenceTree) -> &Judged {
    tree.judged.as_ref().expect("every node belongs to one of the six judgements")
}

/// Writes `body` after its count.
fn section(out: &mut Vec<u32>, body: impl FnOnce(&mut Vec<u32>)) {
    let count = out.len();
    out.push(0);
    body(out);
    out[count] = (out.len() - count - 1) as u32;
}

fn write_ty(out: &mut Vec<u32>, ty: &Type) {
    match ty {
        Type::Int => out.push(1),
        Type::Bool => out.push(2),
        Type::Var(a) => out.extend([3, name_number(a)]),
        Type::ETVar(a) => out.extend([4, name_number(a)]),
        Type::Arrow(from, to) => {
            out.push(5);
            write_ty(out, from);
            write_ty(out, to);
        }
        Type::Forall(a, body) => {
            out.extend([6, name_number(a)]);
            write_ty(out, body);
        }
    }
}

fn type_section(out: &mut Vec<u32>, ty: Option<&Type>) {
    section(out, |out| {
        if let Some(ty) = ty {
            write_ty(out, ty);
        }
    });
}

fn write_entry(out: &mut Vec<u32>, entry: &Entry) {
    let (code, name, ty) = match entry {
        Entry::VarBnd(x, ty) => (32, x, Some(ty)),
        Entry::TVarBnd(a) => (33, a, None),
        Entry::ETVarBnd(a) => (34, a, None),
        Entry::SETVarBnd(a, ty) => (35, a, Some(ty)),
        Entry::Mark(a) => (36, a, None),
    };
    out.extend([code, name_number(name)]);
    if let Some(ty) = ty {
        write_ty(out, ty);
    }
}

fn context_section(out: &mut Vec<u32>, context: &Context) {
    section(out, |out| context.0.iter().for_each(|entry| write_entry(out, entry)));
}

fn write_tree(out: &mut Vec<u32>, tree: &InferenceTree) {
    let judged = judged(tree);
    out.extend([rule_number(&tree.rule), tree.children.len() as u32, judged.place]);
    context_section(out, &judged.input);
    type_section(out, judged.left.as_ref());
    type_section(out, judged.right.as_ref());
    context_section(out, &judged.output);
    type_section(out, judged.result.as_ref());
    tree.children.iter().for_each(|child| write_tree(out, child));
}

pub fn found_words(found: &Found) -> Vec<u32> {
    let mut out = Vec::new();
    type_section(&mut out, found.ty.as_ref());
    context_section(&mut out, &found.context);
    section(&mut out, |out| write_tree(out, &found.tree));
    out
}

pub fn section_words(types: [Option<&Type>; 2]) -> Vec<u32> {
    let mut out = Vec::new();
    types.into_iter().for_each(|ty| type_section(&mut out, ty));
    out
}

/// What InstantiationError would have in the place of a code. No question draws it (never_16, crates/promises/proofs/Main.antt): one that did
/// would differ here from every reply.
pub const UNDRAWN: u32 = u32::MAX;

/// A type error's code, place and two types.
pub fn error_parts(error: &TypeError) -> (u32, u32, [Option<&Type>; 2]) {
    match error {
        TypeError::UnboundVariable { name, .. } => (11, name_number(name), [None, None]),
        TypeError::ApplicationTypeError { actual, .. } => (12, 0, [Some(actual), None]),
        TypeError::TypeApplicationError { actual, .. } => (13, 0, [Some(actual), None]),
        TypeError::OccursCheck { var, ty, .. } => (14, name_number(var), [Some(ty), None]),
        TypeError::SubtypingError { left, right, .. } => (15, 0, [Some(left), Some(right)]),
        TypeError::InstantiationError { .. } => (UNDRAWN, 0, [None, None]),
        TypeError::ParameterMismatch { written, applied } => {
            (17, 0, [Some(written), Some(applied)])
        }
    }
}
