//! The report: its length first, since a report that does not fit leaves the slice as it was; then its words.

use crate::contexts::{holds_type, Context};
use crate::run::{Answer, Run, TypeError, NODE};
use crate::types::{Type, TypeRef};

/// A node of the tree; a type that its judgement does not have is None.
struct Node {
    rule: u32,
    children: u32,
    place: u32,
    input: Context,
    left: Option<TypeRef>,
    right: Option<TypeRef>,
    output: Context,
    result: Option<TypeRef>,
}

impl Node {
    fn new(words: &[u32]) -> Node {
        let kind = words[10];
        let context = |i: usize| Context { at: words[i] as usize, len: words[i + 1] as usize };
        Node {
            rule: words[0],
            children: words[1],
            place: words[2],
            input: context(3),
            left: (kind >= 3).then(|| words[5]),
            right: (kind != 1 && kind != 3).then(|| words[6]),
            output: context(7),
            result: (kind == 1 || kind == 3).then(|| words[9]),
        }
    }
}

/// The nodes, parent first.
fn nodes<'a>(run: &'a Run) -> impl Iterator<Item = Node> + 'a {
    run.work[run.low..].rchunks_exact(NODE).map(Node::new)
}

/// Reports an answer: the length written, or the length that there is no room for.
pub fn result(run: &Run, kind: u32, answer: &Answer, report: &mut [u32]) -> Result<u32, u32> {
    let ty = matches!(kind, 1 | 3 | 7).then_some(answer.ty);
    let tree: u64 = nodes(run).map(|node| node_length(run, &node)).sum();
    let length = section_length(run, ty) + context_length(run, answer.context) + 1 + tree;
    let mut pen = Pen::new(run, report, length)?;
    pen.section(ty);
    pen.context(answer.context);
    pen.word(tree as u32);
    nodes(run).for_each(|node| pen.node(&node));
    Ok(length as u32)
}

/// Reports a type error: two types, of which none, the first or both are used.
pub fn error(run: &Run, error: &TypeError, report: &mut [u32]) -> Result<u32, u32> {
    let left = (error.code > 11).then_some(error.left);
    let right = matches!(error.code, 15 | 17).then_some(error.right);
    let length = section_length(run, left) + section_length(run, right);
    let mut pen = Pen::new(run, report, length)?;
    pen.section(left);
    pen.section(right);
    Ok(length as u32)
}

fn section_length(run: &Run, ty: Option<TypeRef>) -> u64 {
    1 + ty.map_or(0, |ty| u64::from(run.length(ty)))
}

fn context_length(run: &Run, g: Context) -> u64 {
    let length = |entry: &[u32]| match holds_type(entry[0]) {
        true => 2 + u64::from(run.length(entry[2])),
        false => 2,
    };
    1 + run.entries(g).map(length).sum::<u64>()
}

fn node_length(run: &Run, node: &Node) -> u64 {
    let contexts = context_length(run, node.input) + context_length(run, node.output);
    let types: u64 =
        [node.left, node.right, node.result].map(|ty| section_length(run, ty)).iter().sum();
    3 + contexts + types
}

/// Writes into the report, word after word.
struct Pen<'a> {
    run: &'a Run<'a>,
    report: &'a mut [u32],
    at: usize,
}

impl<'a> Pen<'a> {
    fn new(run: &'a Run, report: &'a mut [u32], length: u64) -> Result<Pen<'a>, u32> {
        match u32::try_from(length) {
            Ok(length) if length as usize <= report.len() => Ok(Pen { run, report, at: 0 }),
            Ok(length) => Err(length),
            Err(_) => Err(u32::MAX),
        }
    }

    fn word(&mut self, word: u32) {
        self.report[self.at] = word;
        self.at += 1;
    }

    fn words<const N: usize>(&mut self, words: [u32; N]) {
        self.report[self.at..self.at + N].copy_from_slice(&words);
        self.at += N;
    }

    fn ty(&mut self, r: TypeRef) {
        match self.run.written_words(r) {
            Some(words) => {
                self.report[self.at..self.at + words.len()].copy_from_slice(words);
                self.at += words.len();
            }
            None => self.made_type(r),
        }
    }

    fn made_type(&mut self, r: TypeRef) {
        match self.run.ty(r) {
            Type::Int => self.word(1),
            Type::Bool => self.word(2),
            Type::Var(a) => self.words([3, a]),
            Type::ETVar(a) => self.words([4, a]),
            Type::Arrow(from, to) => {
                self.word(5);
                self.ty(from);
                self.ty(to);
            }
            Type::Forall(a, body) => {
                self.words([6, a]);
                self.ty(body);
            }
        }
    }

    fn section(&mut self, ty: Option<TypeRef>) {
        match ty {
            Some(ty) => {
                self.word(self.run.length(ty));
                self.ty(ty);
            }
            None => self.word(0),
        }
    }

    fn context(&mut self, g: Context) {
        let count_at = self.at;
        self.word(0);
        for entry in self.run.entries(g) {
            self.words([entry[0], entry[1]]);
            if holds_type(entry[0]) {
                self.ty(entry[2]);
            }
        }
        self.report[count_at] = (self.at - count_at - 1) as u32;
    }

    fn node(&mut self, node: &Node) {
        self.words([node.rule, node.children, node.place]);
        self.context(node.input);
        self.section(node.left);
        self.section(node.right);
        self.context(node.output);
        self.section(node.result);
    }
}
