//! Substitution and context application: each call is charged one unit; what does not change is shared.

use crate::contexts::{Context, Key};
use crate::run::{Run, Stop};
use crate::types::{Type, TypeRef};

impl Run<'_> {
    /// The type `by` for the name a; Var and ETVar of one name count alike.
    pub fn subst(&mut self, a: u32, by: TypeRef, r: TypeRef) -> Result<TypeRef, Stop> {
        self.charge(1)?;
        match self.ty(r) {
            Type::Var(b) | Type::ETVar(b) if a == b => Ok(by),
            Type::Arrow(from, to) => {
                let from = self.subst(a, by, from)?;
                let to = self.subst(a, by, to)?;
                Ok(self.arrow(from, to))
            }
            Type::Forall(b, body) if a != b => {
                let body = self.subst(a, by, body)?;
                Ok(self.forall(b, body))
            }
            _ => Ok(r),
        }
    }

    /// The context's solutions for the unknowns of a type, followed to their end.
    pub fn apply(&mut self, g: Context, r: TypeRef) -> Result<TypeRef, Stop> {
        self.charge(1)?;
        match self.ty(r) {
            Type::ETVar(a) => match self.lookup(g, Key::Solved(a)) {
                Some(solution) => self.apply(g, solution),
                None => Ok(r),
            },
            Type::Arrow(from, to) => {
                let from = self.apply(g, from)?;
                let to = self.apply(g, to)?;
                Ok(self.arrow(from, to))
            }
            Type::Forall(a, body) => {
                let body = self.apply(g, body)?;
                Ok(self.forall(a, body))
            }
            Type::Int | Type::Bool | Type::Var(_) => Ok(r),
        }
    }
}
