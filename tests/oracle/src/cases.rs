// Document 01's fifteen cases and edges, the questions of READINGS.md and those of
// order 2, with what those papers say of the reply.
use crate::asked::Asked;
use crate::make_sizes::in_full;
use crate::reply::{needed_work, reply};

pub struct Case {
    pub label: &'static str,
    pub words: &'static [u32],
    code: u32,
    at: u32,
    /// 0 where nothing is said.
    units: u32,
    /// The first words of the report.
    report: &'static [u32],
}

const fn case(
    label: &'static str,
    words: &'static [u32],
    [code, at, units]: [u32; 3],
    report: &'static [u32],
) -> Case {
    Case { label, words, code, at, units, report }
}

/// fun x:Int. x
const B: &[u32] = &[7, 0, 0, 5, 18, 5, 1, 16, 5, 0, 0];
const F: &[u32] = &[2, 1, 0, 6, 18, 5, 2, 22, 1, 0, 0, 3, 5, 1, 1];
const UNBOUND: &[u32] = &[7, 0, 0, 2, 16, 5, 0, 0];
const RING: &[u32] = &[2, 0, 4, 35, 1, 4, 1, 3, 22, 1, 0, 0, 2, 4, 1];

#[rustfmt::skip]
pub const CASES: &[Case] = &[
    case("a", &[7, 0, 0, 3, 22, 1, 0, 0, 0], [0, 0, 2],
        &[1, 1, 0, 9, 2, 0, 4, 0, 0, 0, 0, 1, 1]),
    case("b", B, [0, 0, 28], &[3, 5, 1, 1]),
    case("c", &[7, 0, 0, 11, 18, 5, 1, 17, 18, 6, 1, 16, 6, 16, 5, 0, 0], [11, 5, 0], &[0, 0]),
    case("d", &[7, 0, 0, 8, 18, 5, 1, 18, 5, 2, 16, 5, 0, 0], [0, 0, 0], &[5, 5, 1, 5, 2, 1]),
    case("e", &[2, 0, 0, 6, 18, 5, 2, 22, 1, 0, 0, 3, 5, 1, 1], [0, 0, 0], &[0, 0]),
    case("f", F, [17, 0, 2], &[1, 2, 1, 1]),
    case("g", &[7, 0, 0, 8, 20, 1, 18, 5, 3, 1, 16, 5, 0, 0], [0, 0, 0], &[7, 6, 1, 5, 3, 1, 3, 1]),
    case("h", &[7, 0, 0, 10, 19, 20, 1, 18, 5, 3, 1, 16, 5, 1, 0, 0], [0, 0, 0], &[3, 5, 1, 1]),
    case("i", &[7, 0, 0, 5, 19, 22, 1, 0, 1, 0, 0], [13, 0, 0], &[1, 1, 0]),
    case("j", &[7, 0, 0, 7, 17, 22, 1, 0, 22, 2, 0, 0, 0], [12, 0, 0], &[1, 1, 0]),
    case("k", &[7, 0, 0, 8, 25, 23, 1, 22, 1, 0, 23, 1, 0, 0], [15, 0, 0], &[1, 1, 1, 2]),
    case("l", &[7, 0, 0, 13, 25, 23, 1, 18, 5, 1, 16, 5, 18, 5, 1, 23, 1, 0, 0], [0, 0, 0],
        &[3, 5, 1, 1]),
    case("m", &[7, 1, 0, 13, 25, 23, 1, 18, 5, 1, 16, 5, 18, 5, 1, 23, 1, 0, 0], [15, 0, 0],
        &[1, 1, 1, 2]),
    case("n", &[4, 0, 0, 0, 7, 6, 1, 5, 3, 1, 3, 1, 3, 5, 1, 2], [0, 0, 0], &[0, 3, 35, 1, 2]),
    case("o", &[5, 0, 0, 0, 2, 4, 1, 2, 3, 1], [14, 1, 0], &[2, 3, 1, 0]),
    case("edge: a ring", RING, [6, 0, 8192], &[]),
    case("edge: 999,999", &[7, 0, 0, 2, 16, 999_999, 0, 0], [11, 999_999, 1], &[0, 0]),
    case("edge: 1,000,000", &[7, 0, 0, 2, 16, 1_000_000, 0, 0], [5, 5, 0], &[]),
    case("reading 1", &[7, 0, 0, 0, 0, 0], [4, 4, 0], &[]),
    case("reading 2", &[5, 0, 0, 0, 2, 3, 1_000_000, 1, 1], [4, 5, 0], &[]),
    case("reading 3", &[7, 0, 0, 3, 22, 1], [4, 3, 0], &[]),
    case("reading 3, a count missing", &[7, 0], [4, 2, 0], &[]),
    case("reading 4", &[7, 0, 0, 5, 22, 1, 0, 0, 0], [4, 7, 0], &[]),
    case("readings 5 and 11", UNBOUND, [11, 5, 1], &[0, 0]),
    case("reading 6", &[2, 1, 3, 35, 1, 1, 5, 18, 5, 1, 16, 5, 0, 4, 5, 4, 1, 1], [0, 0, 0], &[]),
    case("reading 7", &[2, 1, 3, 35, 1, 1, 7, 18, 5, 4, 1, 22, 1, 0, 0, 3, 5, 1, 1], [17, 0, 0],
        &[2, 4, 1, 1, 1]),
    case("reading 9", &[3, 0, 5, 35, 1, 5, 1, 1, 3, 22, 1, 0, 2, 4, 1, 0], [0, 0, 0],
        &[2, 4, 1_000_001]),
    case("reading 13, a code", &[7, 0, 0, 1, 1_000_000, 0, 0], [4, 4, 0], &[]),
    case("reading 13, a literal", &[7, 0, 0, 3, 22, 1_000_000, 1_000_000, 0, 0], [0, 0, 2],
        &[1, 1]),
    case("reading 14", &[3, 0, 0, 3, 22, 1, 0, 3, 5, 1, 2, 0], [0, 0, 0],
        &[1, 2, 0, 21, 15, 1, 4, 0]),
    case("reading 15", &[7, 0, 0, 8, 19, 20, 1, 20, 1, 23, 1, 1, 0, 0], [0, 0, 16],
        &[3, 6, 1, 2]),
];

/// Order 2's example and sentences, and its points as they were decided. They stand apart since
/// CASES is recorded.
#[rustfmt::skip]
pub const LETTERS: &[Case] = &[
    case("order 2", &[2, 1, 0, 12, 18, 5, 6, 1, 5, 3, 1, 3, 1, 22, 1, 0, 0,
            9, 5, 6, 2, 5, 3, 2, 3, 2, 1], [0, 0, 8],
        &[0, 0, 44, 19, 1, 4, 0, 0, 9, 5, 6, 2, 5, 3, 2, 3, 2, 1, 0, 0,
            17, 0, 13, 9, 32, 5, 6, 2, 5, 3, 2, 3, 2]),
    case("order 2, a bound and a free name",
        &[2, 1, 0, 9, 18, 5, 6, 1, 3, 2, 22, 1, 0, 0, 6, 5, 6, 2, 3, 2, 1], [17, 0, 3],
        &[4, 6, 1, 3, 2, 4, 6, 2, 3, 2]),
    case("order 2, Var and ETVar",
        &[2, 1, 0, 9, 18, 5, 6, 1, 3, 1, 22, 1, 0, 0, 6, 5, 6, 2, 4, 2, 1], [17, 0, 3],
        &[4, 6, 1, 3, 1, 4, 6, 2, 4, 2]),
    case("order 2, plain", &[2, 0, 0, 9, 18, 5, 6, 1, 4, 1, 22, 1, 0, 0, 6, 5, 6, 2, 4, 2, 1],
        [0, 0, 4], &[0, 0, 35, 19]),
    case("2.1", &[2, 1, 0, 9, 18, 5, 6, 1, 4, 1, 22, 1, 0, 0, 6, 5, 6, 2, 4, 2, 1], [17, 0, 3],
        &[4, 6, 1, 4, 1, 4, 6, 2, 4, 2]),
    case("2.1, one unknown",
        &[2, 1, 0, 9, 18, 5, 6, 1, 4, 1, 22, 1, 0, 0, 6, 5, 6, 2, 4, 1, 1], [0, 0, 6],
        &[0, 0, 35, 19, 1, 4, 0, 0, 6, 5, 6, 2, 4, 1, 1, 0, 0, 17, 0, 10, 6, 32, 5, 6, 2, 4, 1]),
    case("2.2", &[2, 1, 0, 11, 18, 5, 6, 1, 6, 1, 3, 1, 22, 1, 0, 0, 8, 5, 6, 1, 6, 2, 3, 1, 1],
        [17, 0, 4], &[6, 6, 1, 6, 1, 3, 1, 6, 6, 1, 6, 2, 3, 1]),
    case("2.3", &[2, 1, 4, 35, 3, 3, 2, 9, 18, 5, 6, 1, 3, 1, 22, 1, 0, 0, 6, 5, 6, 2, 4, 3, 1],
        [0, 0, 10], &[0, 0, 47, 19, 1, 8, 4, 35, 3, 3, 2, 0, 6, 5, 6, 2, 4, 3, 1, 0, 0,
            17, 0, 14, 10, 35, 3, 3, 2, 32, 5, 6, 2, 4, 3]),
    case("2.5", &[2, 1, 0, 9, 18, 5, 6, 1, 3, 1, 22, 1, 0, 0, 6, 5, 6, 2, 3, 2, 1], [0, 0, 6],
        &[0, 0, 35, 19, 1, 4, 0, 0, 6, 5, 6, 2, 3, 2, 1, 0, 0, 17, 0, 10, 6, 32, 5, 6, 2, 3, 2]),
];

/// Sizes that the papers name, or that lie at an edge of them.
pub fn sized() -> Vec<Asked> {
    let mut all: Vec<Asked> = CASES.iter().map(|case| in_full(case.words)).collect();
    let mut ask = |budget: u32, room: u64, words: &[u32]| {
        let work = needed_work(budget);
        all.push(Asked { budget, work, room, words: words.to_vec() });
    };
    for case in CASES {
        ask(384, 4_096, case.words);
        ask(384, 0, case.words);
    }
    for budget in [0, 1, 27, 28, 29, 8_193] {
        ask(budget, 4_096, B);
    }
    for room in [0, 1, 107, 108, 109] {
        ask(28, room, B);
        ask(27, room, B);
    }
    for budget in 1..=3 {
        ask(budget, 4_096, F);
        ask(budget, 0, RING);
        ask(budget, 1, UNBOUND);
    }
    ask(8_191, 4_096, RING);
    all.extend(orders_of_refusal());
    all
}

/// Several causes of refusal at once: the first of 1, 2, 3 decides.
fn orders_of_refusal() -> Vec<Asked> {
    let mut all = Vec::new();
    for budget in [0, 1, 8_192, 8_193, u32::MAX] {
        for short in [0, 1, 4_096] {
            for words in [&[][..], &[0], B] {
                let work = needed_work(budget) - short;
                all.push(Asked { budget, work, room: 4_096, words: words.to_vec() });
            }
        }
    }
    all
}

/// Holds every case to what its paper says.
pub fn hold_all() -> Result<(), String> {
    for case in CASES.iter().chain(LETTERS) {
        let got = reply(&in_full(case.words));
        let units_differ = case.units != 0 && got.units != case.units;
        let same = got.code == case.code && got.at == case.at && !units_differ;
        if !same || !got.report.starts_with(case.report) {
            return Err(format!("case {}: got {got}", case.label));
        }
    }
    Ok(())
}
