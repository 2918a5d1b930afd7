// One run of the counted copy on a question that was read.
use std::collections::HashMap;
use std::panic::{catch_unwind, resume_unwind, AssertUnwindSafe};

use counted::ast::{Expr, Type};
use counted::errors::{TypeError, TypeResult};
use counted::meter::{Meter, OutOfBudget};
use counted::typecheck::{run_bidirectional, BiDirectional, Context, InferenceTree};

use crate::convert::{counted as to, name_text, note_places};
use crate::question::{Question, Ty};

pub struct Found {
    pub ty: Option<Type>,
    pub context: Context,
    pub tree: InferenceTree,
}

pub enum Ending {
    OutOfBudget,
    Refused(TypeError),
    Found(Found),
}

pub struct Run {
    pub ending: Ending,
    pub units: u32,
}

/// The name of kind 5's left or kind 6's right type, which reading saw to.
pub fn unknown_name(ty: &Ty) -> String {
    match ty {
        Ty::ETVar(a) => name_text(*a),
        _ => unreachable!("reading lets only an ETVar stand here"),
    }
}

fn typed((ty, context, tree): (Type, Context, InferenceTree)) -> Found {
    Found { ty: Some(ty), context, tree }
}

fn untyped((context, tree): (Context, InferenceTree)) -> Found {
    Found { ty: None, context, tree }
}

fn judge(bi: &mut BiDirectional, question: &Question, expr: Option<&Expr>) -> TypeResult<Found> {
    let context = to::context(&question.context);
    let expr = || expr.expect("listed for this kind");
    let part = |ty: &Option<Ty>| to::ty(ty.as_ref().expect("listed for this kind"));
    let name = |ty: &Option<Ty>| unknown_name(ty.as_ref().expect("listed for this kind"));
    let (left, right) = (&question.left, &question.right);
    match question.kind {
        1 => bi.infer(&context, expr()).map(typed),
        2 => bi.check(&context, expr(), &part(right)).map(untyped),
        3 => bi.infer_app(&context, &part(left), expr()).map(typed),
        4 => bi.subtype(&context, &part(left), &part(right)).map(untyped),
        5 => bi.inst_l(&context, &name(left), &part(right)).map(untyped),
        6 => bi.inst_r(&context, &part(left), &name(right)).map(untyped),
        _ => run_bidirectional(bi, expr()).map(typed),
    }
}

pub fn run(question: &Question, budget: u32) -> Run {
    let expr = question.term.as_ref().map(to::expr);
    let mut places = HashMap::new();
    if let (Some(expr), Some(term)) = (&expr, &question.term) {
        note_places(expr, term, &mut places);
    }
    let meter = Meter::new(question.strict, u64::from(budget), places);
    let mut bi = BiDirectional::new(meter);
    let ended = catch_unwind(AssertUnwindSafe(|| judge(&mut bi, question, expr.as_ref())));
    let spent = bi.meter.spent() as u32;
    match ended {
        Ok(Ok(found)) => Run { ending: Ending::Found(found), units: spent },
        Ok(Err(error)) => Run { ending: Ending::Refused(error), units: spent },
        Err(thrown) if thrown.is::<OutOfBudget>() => {
            Run { ending: Ending::OutOfBudget, units: budget }
        }
        Err(thrown) => resume_unwind(thrown),
    }
}
