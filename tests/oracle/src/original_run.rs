// One run of the original copy on a question in plain mode.
use original::ast::Type;
use original::errors::TypeResult;
use original::typecheck::{run_bidirectional, BiDirectional, Context, InferenceTree};

use crate::convert::original as to;
use crate::question::{Question, Ty};
use crate::run::unknown_name;

pub struct Told {
    pub ty: Option<Type>,
    pub context: Context,
    pub tree: InferenceTree,
}

fn typed((ty, context, tree): (Type, Context, InferenceTree)) -> Told {
    Told { ty: Some(ty), context, tree }
}

fn untyped((context, tree): (Context, InferenceTree)) -> Told {
    Told { ty: None, context, tree }
}

pub fn ask(question: &Question) -> TypeResult<Told> {
    let mut bi = BiDirectional::new();
    let context = to::context(&question.context);
    let expr = || to::expr(question.term.as_ref().expect("listed for this kind"));
    let part = |ty: &Option<Ty>| to::ty(ty.as_ref().expect("listed for this kind"));
    let name = |ty: &Option<Ty>| unknown_name(ty.as_ref().expect("listed for this kind"));
    let (left, right) = (&question.left, &question.right);
    match question.kind {
        1 => bi.infer(&context, &expr()).map(typed),
        2 => bi.check(&context, &expr(), &part(right)).map(untyped),
        3 => bi.infer_app(&context, &part(left), &expr()).map(typed),
        4 => bi.subtype(&context, &part(left), &part(right)).map(untyped),
        5 => bi.inst_l(&context, &name(left), &part(right)).map(untyped),
        6 => bi.inst_r(&context, &part(left), &name(right)).map(untyped),
        _ => run_bidirectional(&expr()).map(typed),
    }
}
