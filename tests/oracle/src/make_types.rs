// Random names and types, and types like a given one.
use crate::question::{Ty, FIRST_FRESH};
use crate::rng::Rng;

pub struct Maker {
    pub rng: Rng,
}

impl Maker {
    pub fn new(seed: u64) -> Maker {
        Maker { rng: Rng::new(seed) }
    }

    /// Mostly one of few, so that shadowing and doubled entries are common.
    pub fn name(&mut self) -> u32 {
        match self.rng.below(48) {
            0 => 0,
            1 => FIRST_FRESH - 1,
            2 => self.rng.below(FIRST_FRESH),
            3..=8 => 5 + self.rng.below(4),
            _ => 1 + self.rng.below(4),
        }
    }

    pub fn size(&mut self) -> u32 {
        match self.rng.below(40) {
            0 => 30 + self.rng.below(60),
            1..=4 => 10 + self.rng.below(20),
            _ => 1 + self.rng.below(9),
        }
    }

    fn leaf(&mut self) -> Ty {
        match self.rng.below(8) {
            0..=2 => Ty::Int,
            3 => Ty::Bool,
            4..=5 => Ty::Var(self.name()),
            _ => Ty::ETVar(self.name()),
        }
    }

    /// Any type of about this many parts.
    pub fn ty(&mut self, size: u32) -> Ty {
        if size <= 1 {
            return self.leaf();
        }
        match self.rng.below(10) {
            0..=5 => {
                let first = 1 + self.rng.below(size);
                Ty::arrow(self.ty(first / 2), self.ty(size - first / 2 - 1))
            }
            6..=8 => Ty::forall(self.name(), self.ty(size - 1)),
            _ => self.leaf(),
        }
    }

    pub fn small_ty(&mut self) -> Ty {
        let size = self.rng.below(5);
        self.ty(size)
    }

    /// A type whose variables are bound: by itself, or by the names in scope.
    pub fn closed_ty(&mut self, size: u32, scope: &mut Vec<u32>) -> Ty {
        match self.rng.below(if size <= 1 { 6 } else { 14 }) {
            0..=1 => Ty::Int,
            2 => Ty::Bool,
            3..=5 if scope.is_empty() => Ty::Int,
            3..=5 => Ty::Var(self.rng.pick(scope)),
            6..=11 => Ty::arrow(self.closed_ty(size / 2, scope), self.closed_ty(size / 2, scope)),
            _ => {
                let name = self.name();
                scope.push(name);
                let body = self.closed_ty(size - 1, scope);
                scope.pop();
                Ty::forall(name, body)
            }
        }
    }

    /// A type like this one: an instance, a generalisation, or one part changed.
    pub fn near(&mut self, ty: &Ty) -> Ty {
        match (self.rng.below(12), ty) {
            (0, _) => self.small_ty(),
            (1, _) => Ty::forall(self.name(), ty.clone()),
            (2, Ty::Int | Ty::Bool) => Ty::Var(self.name()),
            (3..=5, Ty::Int | Ty::Bool | Ty::Var(_)) => Ty::ETVar(self.name()),
            (2..=6, Ty::Forall(a, body)) => {
                let to = self.leaf();
                replaced(body, *a, &to)
            }
            (_, Ty::Arrow(from, to)) => Ty::arrow(self.near(from), self.near(to)),
            (_, Ty::Forall(a, body)) => Ty::forall(*a, self.near(body)),
            _ => ty.clone(),
        }
    }
}

/// The type with another one for each free Var of a name.
pub fn replaced(ty: &Ty, name: u32, by: &Ty) -> Ty {
    match ty {
        Ty::Var(a) if *a == name => by.clone(),
        Ty::Arrow(from, to) => Ty::arrow(replaced(from, name, by), replaced(to, name, by)),
        Ty::Forall(a, body) if *a != name => Ty::forall(*a, replaced(body, name, by)),
        _ => ty.clone(),
    }
}
