//! A run's state in work, and what every judgement does when it is entered and left.

use crate::contexts::Context;
use crate::reading::{Ends, FIRST_FRESH, MONO_END};
use crate::types::{TypeRef, MONO};

/// Words of a node: rule, children, place, input context (2), left, right, output context (2), result, kind.
pub const NODE: usize = 11;

/// Types and contexts grow up from `top`, nodes down from `low`.
pub struct Run<'a> {
    pub question: &'a [u32],
    pub ends: &'a Ends,
    pub work: &'a mut [u32],
    pub top: usize,
    pub low: usize,
    pub left: u32,
    pub fresh: u32,
    pub strict: bool,
}

/// Why a run ends early: the next charge would pass the budget, or a type error.
pub enum Stop {
    Spent,
    Refused(TypeError),
}

pub struct TypeError {
    pub code: u32,
    pub name: u32,
    pub left: TypeRef,
    pub right: TypeRef,
}

/// What a rule gives; `ty` means something for infer and infer_app alone.
pub struct Answer {
    pub context: Context,
    pub ty: TypeRef,
    pub rule: u32,
    pub children: u32,
}

/// A judgement besides its context: its kind, the place of its expression, its types.
pub struct Ask {
    pub kind: u32,
    pub expr: u32,
    pub left: TypeRef,
    pub right: TypeRef,
}

pub fn refused<T>(code: u32, name: u32, left: TypeRef, right: TypeRef) -> Result<T, Stop> {
    Err(Stop::Refused(TypeError { code, name, left, right }))
}

impl<'a> Run<'a> {
    pub fn new(
        question: &'a [u32],
        ends: &'a Ends,
        work: &'a mut [u32],
        budget: u32,
        strict: bool,
    ) -> Run<'a> {
        let low = work.len();
        let mut run = Run { question, ends, work, top: 0, low, left: budget, fresh: 0, strict };
        run.put([1 | MONO]);
        run.put([2 | MONO]);
        run
    }

    /// Puts words at the top; their place.
    pub fn put<const N: usize>(&mut self, words: [u32; N]) -> usize {
        let at = self.top;
        self.top += N;
        self.work[at..self.top].copy_from_slice(&words);
        at
    }

    pub fn charge(&mut self, units: usize) -> Result<(), Stop> {
        self.left = self.left.checked_sub(units as u32).ok_or(Stop::Spent)?;
        Ok(())
    }

    pub fn fresh_name(&mut self) -> u32 {
        self.fresh += 1;
        FIRST_FRESH + self.fresh - 1
    }

    /// The place past the type or expression that begins here in the question.
    pub fn end_of(&self, place: u32) -> u32 {
        u32::from(self.ends[place as usize] & !MONO_END)
    }

    /// Pays for entering a judgement, and reserves its node, so that parents stand before children.
    pub fn enter(&mut self, g: Context) -> Result<usize, Stop> {
        self.charge(g.len + 1)?;
        self.low -= NODE;
        Ok(self.low)
    }

    /// Pays for the output context, and writes the node.
    pub fn leave(
        &mut self,
        node: usize,
        g: Context,
        ask: Ask,
        answer: Answer,
    ) -> Result<Answer, Stop> {
        let out = answer.context;
        self.charge(out.len)?;
        self.work[node..node + NODE].copy_from_slice(&[
            answer.rule,
            answer.children,
            ask.expr,
            g.at as u32,
            g.len as u32,
            ask.left,
            ask.right,
            out.at as u32,
            out.len as u32,
            answer.ty,
            ask.kind,
        ]);
        Ok(answer)
    }
}
