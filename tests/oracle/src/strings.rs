// Rebuilds the Rust's strings from our report and holds them to the original's.
use std::collections::HashMap;

use original::ast::Type;
use original::errors::TypeError;
use original::typecheck::InferenceTree;

use crate::asked::Reply;
use crate::convert::{name_number, original as to};
use crate::decode::{error_types, report, Node};
use crate::original_run::{ask, Told};
use crate::question::{Bind, Question, Ty};
use crate::reading::Cursor;
use crate::report::{RULES, UNDRAWN};

type Held = Result<(), String>;

/// Fails with a message unless the two are equal.
fn same<T: PartialEq + std::fmt::Debug>(what: &str, ours: T, theirs: T) -> Held {
    if ours == theirs {
        return Ok(());
    }
    Err(format!("{what}\n  ours     {ours:?}\n  original {theirs:?}"))
}

struct Strings<'a> {
    words: &'a [u32],
    expressions: HashMap<u32, String>,
}

impl Strings<'_> {
    /// The Debug text of the expression at a place of the question.
    fn expression(&mut self, place: u32) -> &str {
        let words = self.words;
        self.expressions.entry(place).or_insert_with(|| {
            let term = Cursor::from_place(words, place).term();
            format!("{:?}", to::expr(&term.expect("an expression of the question")))
        })
    }

    fn input(&mut self, node: &Node) -> String {
        let context = context_text(&node.input);
        let left = || ty_text(&node.left);
        let right = || ty_text(&node.right);
        match node.rule {
            1..=14 => format!("{context} ⊢ {}", self.expression(node.place)),
            15..=16 => format!("{context} ⊢ {} • {}", self.expression(node.place), left()),
            17..=21 => format!("{context} ⊢ {} ⇐ {}", self.expression(node.place), right()),
            22..=29 => format!("{context} ⊢ {} <: {}", left(), right()),
            _ => format!("{context} ⊢ {} :=< {}", left(), right()),
        }
    }

    fn hold_node(&mut self, ours: &Node, theirs: &InferenceTree) -> Held {
        same("rule", RULES[ours.rule as usize - 1], theirs.rule.as_str())?;
        same("number of children", ours.children.len(), theirs.children.len())?;
        same("sections filled", filled(ours), sections_of_rule(ours.rule))?;
        let input = self.input(ours);
        let output = output(ours, &input);
        same("input", input.as_str(), theirs.input.as_str())?;
        same("output", output.as_str(), theirs.output.as_str())?;
        for (our_child, their_child) in ours.children.iter().zip(&theirs.children) {
            self.hold_node(our_child, their_child)?;
        }
        Ok(())
    }
}

/// Whether a place, a left, a right and a result stand in a node.
fn filled(node: &Node) -> [bool; 4] {
    [node.place != 0, node.left.is_some(), node.right.is_some(), node.result.is_some()]
}

fn sections_of_rule(rule: u32) -> [bool; 4] {
    match rule {
        1..=14 => [true, false, false, true],
        15..=16 => [true, true, false, true],
        17..=21 => [true, false, true, false],
        _ => [false, true, true, false],
    }
}

fn context_text(binds: &[Bind]) -> String {
    to::context(binds).to_string()
}

fn ty_text(ty: &Option<Ty>) -> String {
    ty.as_ref().map_or(String::new(), |ty| to::ty(ty).to_string())
}

fn output(node: &Node, input: &str) -> String {
    let context = context_text(&node.output);
    match node.rule {
        1..=14 => format!("{input} ⇒ {} ⊣ {context}", ty_text(&node.result)),
        15..=16 => format!("{input} ⇒⇒ {} ⊣ {context}", ty_text(&node.result)),
        _ => context,
    }
}

fn hold_found(words: &[u32], reply: &Reply, told: &Told) -> Held {
    same("code", reply.code, 0)?;
    same("place", reply.at, 0)?;
    let ours = report(&reply.report).map_err(|fault| format!("report unreadable: {fault:?}"))?;
    same("type", ours.ty.as_ref().map(to::ty), told.ty.clone())?;
    let context = format!("{:?}", to::context(&ours.context));
    same("final context", context, format!("{:?}", told.context))?;
    let mut strings = Strings { words, expressions: HashMap::new() };
    strings.hold_node(&ours.tree, &told.tree)
}

/// Code, name and types that document 01 gives to the Rust's error.
fn error_parts(error: &TypeError) -> (u32, Option<&String>, [Option<&Type>; 2]) {
    match error {
        TypeError::UnboundVariable { name, expr: None } => (11, Some(name), [None, None]),
        TypeError::ApplicationTypeError { actual, expr: None } => (12, None, [Some(actual), None]),
        TypeError::TypeApplicationError { actual, expr: None } => (13, None, [Some(actual), None]),
        TypeError::OccursCheck { var, ty, expr: None } => (14, Some(var), [Some(ty), None]),
        TypeError::SubtypingError { left, right, expr: None } => {
            (15, None, [Some(left), Some(right)])
        }
        TypeError::InstantiationError { .. } => (UNDRAWN, None, [None, None]),
        _ => unreachable!("the Rust never fills in an expr"),
    }
}

fn hold_error(reply: &Reply, error: &TypeError) -> Held {
    let (code, name, types) = error_parts(error);
    if code == UNDRAWN {
        return Err("the original draws InstantiationError".to_string());
    }
    same("code", reply.code, code)?;
    same("place", reply.at, name.map_or(0, |name| name_number(name)))?;
    let ours = error_types(&reply.report).map_err(|fault| format!("unreadable: {fault:?}"))?;
    let ours = ours.map(|ty| ty.as_ref().map(to::ty));
    same("types", ours.each_ref().map(Option::as_ref), types)
}

/// Holds our reply with its whole report to the original's answer.
pub fn hold(words: &[u32], question: &Question, reply: &Reply) -> Held {
    match ask(question) {
        Ok(told) => hold_found(words, reply, &told),
        Err(error) => hold_error(reply, &error),
    }
}
