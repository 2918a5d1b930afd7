// The count of work, and what a node of the tree is to say of its judgement.
use std::cell::Cell;
use std::collections::HashMap;

use crate::ast::{Expr, Type};
use crate::typecheck::Context;

/// What the run is thrown out with when the next charge would pass the budget.
pub struct OutOfBudget;

#[derive(Debug, Clone, Copy, PartialEq)]
pub enum Judgement {
    Infer,
    Check,
    InferApp,
    Subtype,
    InstL,
    InstR,
}

/// One judgement that succeeded, as document 01's node tells it.
#[derive(Debug)]
pub struct Judged {
    pub judgement: Judgement,
    pub place: u32,
    pub input: Context,
    pub left: Option<Type>,
    pub right: Option<Type>,
    pub output: Context,
    pub result: Option<Type>,
}

pub struct Meter {
    pub strict: bool,
    budget: u64,
    spent: Cell<u64>,
    first_pass: Cell<bool>,
    /// The Rust hands expressions on by reference only, so that a node's
    /// address tells its place in the question.
    places: HashMap<*const Expr, u32>,
}

impl Meter {
    pub fn new(strict: bool, budget: u64, places: HashMap<*const Expr, u32>) -> Self {
        Meter { strict, budget, spent: Cell::new(0), first_pass: Cell::new(false), places }
    }

    pub fn spent(&self) -> u64 {
        self.spent.get()
    }

    pub fn charge(&self, units: u64) {
        let spent = self.spent.get() + units;
        if spent > self.budget {
            std::panic::resume_unwind(Box::new(OutOfBudget));
        }
        self.spent.set(spent);
    }

    pub fn enter(&self, input: &Context) {
        self.charge(1 + input.0.len() as u64);
    }

    pub fn succeed(&self, output: &Context) {
        self.charge(output.0.len() as u64);
    }

    pub fn first_pass_begins(&self) {
        self.first_pass.set(true);
    }

    /// Document 01 charges the first pass alone, since later ones change nothing.
    pub fn pass_ends(&self, changed: bool) {
        assert!(self.first_pass.get() || !changed, "a later pass changed the type");
        self.first_pass.set(false);
    }

    pub fn charge_in_first_pass(&self) {
        if self.first_pass.get() {
            self.charge(1);
        }
    }

    pub fn place(&self, expr: &Expr) -> u32 {
        self.places[&(expr as *const Expr)]
    }
}
