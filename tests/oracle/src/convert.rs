// From our parts to the two copies' own types, and names to strings and back.
use std::collections::HashMap;

use crate::question::{Bind, Shape, Term, Ty, FIRST_FRESH};

/// A written name is one string for variables and for type names alike, so
/// that a mixing-up of the two kinds shows.
pub fn name_text(name: u32) -> String {
    match name.checked_sub(FIRST_FRESH) {
        Some(fresh) => format!("α{fresh}"),
        None => format!("n{name}"),
    }
}

pub fn name_number(text: &str) -> u32 {
    let number = |digits: &str| digits.parse::<u32>().expect("a number after the letter");
    match text.strip_prefix('α') {
        Some(fresh) => FIRST_FRESH + number(fresh),
        None => number(&text[1..]),
    }
}

macro_rules! conversions {
    ($copy:ident) => {
        pub mod $copy {
            use super::{name_text, Bind, Shape, Term, Ty};
            use ::$copy::ast::{BinOp, Expr, Type};
            use ::$copy::typecheck::{Context, Entry};

            pub fn ty(t: &Ty) -> Type {
                match t {
                    Ty::Int => Type::Int,
                    Ty::Bool => Type::Bool,
                    Ty::Var(a) => Type::Var(name_text(*a)),
                    Ty::ETVar(a) => Type::ETVar(name_text(*a)),
                    Ty::Arrow(from, to) => Type::Arrow(ty(from).into(), ty(to).into()),
                    Ty::Forall(a, body) => Type::Forall(name_text(*a), ty(body).into()),
                }
            }

            fn operator(op: u32) -> BinOp {
                use BinOp::*;
                let mut in_order = [Add, Sub, Mul, Div, And, Or, Eq, Ne, Lt, Le, Gt, Ge];
                std::mem::replace(&mut in_order[op as usize - 1], Add)
            }

            pub fn expr(term: &Term) -> Expr {
                let sub = |e: &Term| expr(e).into();
                match &term.shape {
                    Shape::Var(x) => Expr::Var(name_text(*x)),
                    Shape::App(e1, e2) => Expr::App(sub(e1), sub(e2)),
                    Shape::Abs(x, t, e) => Expr::Abs(name_text(*x), ty(t).into(), sub(e)),
                    Shape::TApp(e, t) => Expr::TApp(sub(e), ty(t).into()),
                    Shape::TAbs(a, e) => Expr::TAbs(name_text(*a), sub(e)),
                    Shape::Ann(e, t) => Expr::Ann(sub(e), ty(t).into()),
                    Shape::LitInt(n) => Expr::LitInt(*n),
                    Shape::LitBool(b) => Expr::LitBool(*b),
                    Shape::Let(x, e1, e2) => Expr::Let(name_text(*x), sub(e1), sub(e2)),
                    Shape::If(e1, e2, e3) => Expr::IfThenElse(sub(e1), sub(e2), sub(e3)),
                    Shape::BinOp(op, e1, e2) => Expr::BinOp(operator(*op), sub(e1), sub(e2)),
                }
            }

            fn entry(bind: &Bind) -> Entry {
                match bind {
                    Bind::Var(x, t) => Entry::VarBnd(name_text(*x), ty(t)),
                    Bind::TVar(a) => Entry::TVarBnd(name_text(*a)),
                    Bind::ETVar(a) => Entry::ETVarBnd(name_text(*a)),
                    Bind::Solved(a, t) => Entry::SETVarBnd(name_text(*a), ty(t)),
                    Bind::Mark(a) => Entry::Mark(name_text(*a)),
                }
            }

            pub fn context(binds: &[Bind]) -> Context {
                Context(binds.iter().map(entry).collect())
            }
        }
    };
}

conversions!(original);
conversions!(counted);

fn children(expr: &::counted::ast::Expr) -> Vec<&::counted::ast::Expr> {
    use ::counted::ast::Expr::*;
    match expr {
        Var(_) | LitInt(_) | LitBool(_) => vec![],
        Abs(_, _, e) | TApp(e, _) | TAbs(_, e) | Ann(e, _) => vec![e],
        App(e1, e2) | Let(_, e1, e2) | BinOp(_, e1, e2) => vec![e1, e2],
        IfThenElse(e1, e2, e3) => vec![e1, e2, e3],
    }
}

/// Notes for each node's address its place in the question.
pub fn note_places(
    expr: &::counted::ast::Expr,
    term: &Term,
    places: &mut HashMap<*const ::counted::ast::Expr, u32>,
) {
    places.insert(expr, term.place);
    for (e, t) in children(expr).into_iter().zip(term.children()) {
        note_places(e, t, places);
    }
}
