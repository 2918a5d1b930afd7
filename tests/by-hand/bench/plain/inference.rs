//! infer, check and infer_app with their rules.

use crate::contexts::{Context, Key};
use crate::run::{refused, Answer, Ask, Run, Stop};
use crate::types::{Type, TypeRef, BOOL, INT};

type Judged = Result<Answer, Stop>;

fn answer(context: Context, ty: TypeRef, rule: u32, children: u32) -> Judged {
    Ok(Answer { context, ty, rule, children })
}

impl Run<'_> {
    pub fn infer(&mut self, g: Context, expr: u32) -> Judged {
        let node = self.enter(g)?;
        let answer = self.infer_rule(g, expr)?;
        self.leave(node, g, Ask { kind: 1, expr, left: 0, right: 0 }, answer)
    }

    fn infer_rule(&mut self, g: Context, expr: u32) -> Judged {
        let first = expr + 1;
        match self.code(expr) {
            16 => self.infer_var(g, self.code(first)),
            17 => self.infer_application(g, first),
            18 => self.infer_lambda(g, self.code(first), expr + 2),
            19 => self.infer_type_application(g, first),
            20 => self.infer_type_lambda(g, self.code(first), expr + 2),
            21 => {
                let ty = self.end_of(first);
                let out = self.check(g, first, ty)?.context;
                answer(out, ty, 12, 1)
            }
            22 => answer(g, INT, 2, 0),
            23 => answer(g, BOOL, 3, 0),
            24 => self.infer_let(g, self.code(first), expr + 2),
            25 => self.infer_if(g, first),
            _ => self.infer_operation(g, self.code(first), expr + 2),
        }
    }

    /// The word of the question at a place.
    fn code(&self, place: u32) -> u32 {
        self.question[place as usize]
    }

    fn infer_var(&mut self, g: Context, x: u32) -> Judged {
        match self.lookup(g, Key::Var(x)) {
            Some(ty) => answer(g, ty, 1, 0),
            None => refused(11, x, 0, 0),
        }
    }

    fn infer_lambda(&mut self, g: Context, x: u32, parameter: TypeRef) -> Judged {
        let body = self.end_of(parameter);
        let b = self.fresh_name();
        let unknown = self.etvar(b);
        let ty = self.arrow(parameter, unknown);
        let inner = self.push(g, &[Key::Var(x).of(parameter), Key::ETVar(b).bare()]);
        let out = self.check(inner, body, unknown)?.context;
        answer(self.solved_and_right(out, Key::Var(x)), ty, 4, 1)
    }

    fn infer_application(&mut self, g: Context, function: u32) -> Judged {
        let argument = self.end_of(function);
        let found = self.infer(g, function)?;
        let ty = self.apply(found.context, found.ty)?;
        let result = self.infer_app(found.context, ty, argument)?;
        answer(result.context, result.ty, 5, 2)
    }

    fn infer_type_lambda(&mut self, g: Context, a: u32, body: u32) -> Judged {
        let inner = self.push(g, &[Key::TVar(a).bare()]);
        let found = self.infer(inner, body)?;
        let body_ty = self.apply(found.context, found.ty)?;
        let ty = self.forall(a, body_ty);
        answer(self.solved_and_right(found.context, Key::TVar(a)), ty, 13, 1)
    }

    fn infer_type_application(&mut self, g: Context, function: u32) -> Judged {
        let by = self.end_of(function);
        let found = self.infer(g, function)?;
        match self.ty(found.ty) {
            Type::Forall(a, body) => {
                let ty = self.subst(a, by, body)?;
                answer(found.context, ty, 14, 1)
            }
            _ => refused(13, 0, found.ty, 0),
        }
    }

    fn infer_let(&mut self, g: Context, x: u32, value: u32) -> Judged {
        let body = self.end_of(value);
        let found = self.infer(g, value)?;
        let inner = self.push(found.context, &[Key::Var(x).of(found.ty)]);
        let result = self.infer(inner, body)?;
        answer(self.solved_and_right(result.context, Key::Var(x)), result.ty, 6, 2)
    }

    fn infer_if(&mut self, g: Context, test: u32) -> Judged {
        let yes = self.end_of(test);
        let no = self.end_of(yes);
        let g1 = self.check(g, test, BOOL)?.context;
        let then = self.infer(g1, yes)?;
        let other = self.infer(then.context, no)?;
        let (mut left, mut right) = (then.ty, other.ty);
        if self.strict {
            left = self.apply(other.context, left)?;
            right = self.apply(other.context, right)?;
        }
        let out = self.subtype(other.context, left, right)?.context;
        answer(out, then.ty, 7, 4)
    }

    fn infer_operation(&mut self, g: Context, op: u32, e1: u32) -> Judged {
        let e2 = self.end_of(e1);
        let (of, result, rule) = match op {
            1..=4 => (INT, INT, 8),
            5..=6 => (BOOL, BOOL, 9),
            7..=8 => {
                let found = self.infer(g, e1)?;
                let out = self.check(found.context, e2, found.ty)?.context;
                return answer(out, BOOL, 11, 2);
            }
            _ => (INT, BOOL, 10),
        };
        let g1 = self.check(g, e1, of)?.context;
        let out = self.check(g1, e2, of)?.context;
        answer(out, result, rule, 2)
    }

    pub fn check(&mut self, g: Context, expr: u32, ty: TypeRef) -> Judged {
        let node = self.enter(g)?;
        let answer = self.check_rule(g, expr, ty)?;
        self.leave(node, g, Ask { kind: 2, expr, left: 0, right: ty }, answer)
    }

    fn check_rule(&mut self, g: Context, expr: u32, ty: TypeRef) -> Judged {
        match (self.code(expr), self.ty(ty)) {
            (22, Type::Int) => answer(g, INT, 17, 0),
            (23, Type::Bool) => answer(g, INT, 18, 0),
            (18, Type::Arrow(from, to)) => self.check_lambda(g, expr, from, to),
            (_, Type::Forall(a, body)) => {
                let inner = self.push(g, &[Key::TVar(a).bare()]);
                let out = self.check(inner, expr, body)?.context;
                answer(self.right_of(out, Key::TVar(a)), INT, 20, 1)
            }
            _ => {
                let found = self.infer(g, expr)?;
                let left = self.apply(found.context, found.ty)?;
                let right = self.apply(found.context, ty)?;
                let out = self.subtype(found.context, left, right)?.context;
                answer(out, INT, 21, 2)
            }
        }
    }

    /// The body under the expected parameter, with which strict mode compares the written one.
    fn check_lambda(&mut self, g: Context, expr: u32, from: TypeRef, to: TypeRef) -> Judged {
        let (x, written) = (self.code(expr + 1), expr + 2);
        if self.strict {
            let applied = self.apply(g, from)?;
            if !self.same(written, applied) {
                return refused(17, 0, written, applied);
            }
        }
        let inner = self.push(g, &[Key::Var(x).of(from)]);
        let out = self.check(inner, self.end_of(written), to)?.context;
        answer(self.right_of(out, Key::Var(x)), INT, 19, 1)
    }

    pub fn infer_app(&mut self, g: Context, ty: TypeRef, expr: u32) -> Judged {
        let node = self.enter(g)?;
        let answer = self.infer_app_rule(g, ty, expr)?;
        self.leave(node, g, Ask { kind: 3, expr, left: ty, right: 0 }, answer)
    }

    fn infer_app_rule(&mut self, g: Context, ty: TypeRef, expr: u32) -> Judged {
        match self.ty(ty) {
            Type::Arrow(from, to) => {
                let out = self.check(g, expr, from)?.context;
                answer(out, to, 15, 1)
            }
            Type::ETVar(a) => {
                let (inner, from, to) = self.part(g, a);
                let out = self.check(inner, expr, from)?.context;
                answer(out, to, 16, 1)
            }
            _ => refused(12, 0, ty, 0),
        }
    }
}
