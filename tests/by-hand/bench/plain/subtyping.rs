//! Subtyping and its rules; the order of the arms is their priority.

use crate::contexts::{Context, Key};
use crate::run::{refused, Answer, Ask, Run, Stop};
use crate::types::{Type, TypeRef, INT};

impl Run<'_> {
    pub fn subtype(&mut self, g: Context, left: TypeRef, right: TypeRef) -> Result<Answer, Stop> {
        let node = self.enter(g)?;
        let (context, rule, children) = self.subtype_rule(g, left, right)?;
        let answer = Answer { context, ty: INT, rule, children };
        self.leave(node, g, Ask { kind: 4, expr: 0, left, right }, answer)
    }

    /// The output context, the rule and the number of its children.
    fn subtype_rule(
        &mut self,
        g: Context,
        left: TypeRef,
        right: TypeRef,
    ) -> Result<(Context, u32, u32), Stop> {
        match (self.ty(left), self.ty(right)) {
            (Type::Int, Type::Int) | (Type::Bool, Type::Bool) => Ok((g, 22, 0)),
            (Type::Var(a), Type::Var(b)) if a == b => Ok((g, 23, 0)),
            (Type::ETVar(a), Type::ETVar(b)) if a == b => Ok((g, 24, 0)),
            (Type::Arrow(a1, a2), Type::Arrow(b1, b2)) => {
                let g1 = self.subtype(g, b1, a1)?.context;
                Ok((self.subtype(g1, a2, b2)?.context, 25, 2))
            }
            (_, Type::Forall(b, body)) => {
                let g1 = self.push(g, &[Key::TVar(b).bare()]);
                let out = self.subtype(g1, left, body)?.context;
                Ok((self.right_of(out, Key::TVar(b)), 26, 1))
            }
            (Type::Forall(a, body), _) => {
                let (g1, body, mark) = self.open(g, a, body)?;
                let out = self.subtype(g1, body, right)?.context;
                Ok((self.right_of(out, mark), 27, 1))
            }
            (Type::ETVar(a), _) if !self.occurs(a, right) => {
                Ok((self.inst_l(g, left, right)?.context, 28, 1))
            }
            (_, Type::ETVar(b)) if !self.occurs(b, left) => {
                Ok((self.inst_r(g, left, right)?.context, 29, 1))
            }
            _ => refused(15, 0, left, right),
        }
    }
}
