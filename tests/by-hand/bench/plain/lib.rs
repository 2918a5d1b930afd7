//! The plain Rust program: document 01's checker as one would write it by hand over the same words, to measure ours against.

mod contexts;
mod inference;
mod instantiation;
mod reading;
mod report;
mod run;
mod substitution;
mod subtyping;
mod types;

use reading::{Asked, Ends};
use run::{Answer, Run, Stop};

const MOST_BUDGET: u32 = 8_192;
const MOST_WORDS: usize = 2_048;

/// The four numbers of a reply.
#[derive(Debug, Clone, Copy, PartialEq)]
pub struct Reply {
    pub code: u32,
    pub at: u32,
    pub len: u32,
    pub units: u32,
}

fn refusal(code: u32, at: u32) -> Reply {
    Reply { code, at, len: 0, units: 0 }
}

/// Answers a question: any words, any budget, any work and any report slice.
pub fn check(question: &[u32], budget: u32, work: &mut [u32], report: &mut [u32]) -> Reply {
    if !(1..=MOST_BUDGET).contains(&budget) {
        return refusal(1, 0);
    }
    let need = 32 * budget as usize + 4_096;
    let Some(work) = work.get_mut(..need) else {
        return refusal(2, 0);
    };
    if !(1..=MOST_WORDS).contains(&question.len()) {
        return refusal(3, 0);
    }
    let mut ends = [0; MOST_WORDS];
    match reading::read(question, &mut ends) {
        Err(fault) => refusal(fault.code, fault.at as u32),
        Ok(asked) => {
            let reply = answer(question, &ends, &asked, budget, work, report);
            work.fill(0);
            reply
        }
    }
}

/// The reply to a question that was read.
fn answer(
    question: &[u32],
    ends: &Ends,
    asked: &Asked,
    budget: u32,
    work: &mut [u32],
    report: &mut [u32],
) -> Reply {
    let mut run = Run::new(question, ends, work, budget, asked.strict);
    let ended = judge(&mut run, asked);
    let units = budget - run.left;
    let (code, at, told) = match ended {
        Err(Stop::Spent) => return Reply { code: 6, at: 0, len: 0, units: budget },
        Ok(answer) => (0, 0, report::result(&run, asked.kind, &answer, report)),
        Err(Stop::Refused(error)) => (error.code, error.name, report::error(&run, &error, report)),
    };
    match told {
        Ok(len) => Reply { code, at, len, units },
        Err(len) => Reply { code: 7, at: 0, len, units },
    }
}

/// The judgement that is asked; kind 7 infers, and resolves the type.
fn judge(run: &mut Run, asked: &Asked) -> Result<Answer, Stop> {
    let Asked { expr, left, right, .. } = *asked;
    let g = run.load(asked.entries.clone())?;
    match asked.kind {
        1 => run.infer(g, expr),
        2 => run.check(g, expr, right),
        3 => run.infer_app(g, left, expr),
        4 => run.subtype(g, left, right),
        5 => run.inst_l(g, left, right),
        6 => run.inst_r(g, left, right),
        _ => {
            let answer = run.infer(g, expr)?;
            let ty = run.apply(answer.context, answer.ty)?;
            Ok(Answer { ty, ..answer })
        }
    }
}
