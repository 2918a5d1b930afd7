// The three that are measured, asked alike.
use original::errors::TypeResult;
use original::typecheck::{run_bidirectional, BiDirectional, Context};

use crate::cases::{needed_work, Case, Class, MOST_BUDGET, MOST_ROOM};
use crate::convert::original as to;

/// The slices that every call of ours and of the plain program gets, never cleared between calls.
pub struct Slices {
    pub work: Vec<u32>,
    pub report: Vec<u32>,
}

impl Slices {
    pub fn new() -> Slices {
        Slices { work: vec![0; needed_work(MOST_BUDGET)], report: vec![0; MOST_ROOM] }
    }
}

/// The original's arguments, made before its time is taken.
pub struct Prepared {
    kind: u32,
    context: Context,
    expr: original::ast::Expr,
    wanted: Option<original::ast::Type>,
}

impl Prepared {
    pub fn new(case: &Case) -> Option<Prepared> {
        let parts = case.parts.as_ref()?;
        Some(Prepared {
            kind: parts.kind,
            context: to::context(&parts.context),
            expr: to::expr(parts.term.as_ref()?),
            wanted: parts.right.as_ref().map(to::ty),
        })
    }
}

/// Whether the original accepts; what it made is dropped here, in its time.
pub fn ask_original(asked: &Prepared) -> bool {
    fn accepts<T>(told: TypeResult<T>) -> bool {
        std::hint::black_box(told).is_ok()
    }
    let mut checker = BiDirectional::new();
    match (asked.kind, &asked.wanted) {
        (7, _) => accepts(run_bidirectional(&asked.expr)),
        (2, Some(ty)) => accepts(checker.check(&asked.context, &asked.expr, ty)),
        _ => accepts(checker.infer(&asked.context, &asked.expr)),
    }
}

pub type Numbers = [u32; 4];

pub fn ask_plain(case: &Case, slices: &mut Slices) -> Numbers {
    let work = &mut slices.work[..needed_work(case.budget)];
    let reply = plain::check(&case.words, case.budget, work, &mut slices.report[..case.room]);
    [reply.code, reply.at, reply.len, reply.units]
}

#[cfg(exported)]
pub fn ask_exported(case: &Case, slices: &mut Slices) -> Option<Numbers> {
    let work = &mut slices.work[..needed_work(case.budget)];
    Some(crate::exported::check(&case.words, case.budget, work, &mut slices.report[..case.room]))
}

#[cfg(not(exported))]
pub fn ask_exported(_: &Case, _: &mut Slices) -> Option<Numbers> {
    None
}

/// Holds the contenders' answers to each other, before any time is taken.
pub fn hold_together(class: &Class) -> Result<(), String> {
    let (mut ours, mut theirs) = (Slices::new(), Slices::new());
    for case in &class.cases {
        let plain = ask_plain(case, &mut theirs);
        let differs = |who: &str| Err(format!("{who} differs, {}: {:?}", class.name, case.words));
        if let Some(exported) = ask_exported(case, &mut ours) {
            if exported != plain || ours.report != theirs.report || ours.work != theirs.work {
                return differs("the exported function");
            }
        }
        match Prepared::new(case) {
            Some(asked) if ask_original(&asked) != (plain[0] == 0) => {
                return differs("the original")
            }
            _ => (),
        }
    }
    Ok(())
}
