// Times: each case is asked in batches. The rounds go over the whole class, the contenders in turn, and the least time counts, so that
// what else the machine does at a moment does not.
use std::hint::black_box;
use std::time::{Duration, Instant};

use crate::cases::{Case, Class};
use crate::contenders::{ask_exported, ask_original, ask_plain, Prepared, Slices};

const ROUNDS: usize = 41;
const BATCH: Duration = Duration::from_millis(1);

/// Nanoseconds for one call, where the contender was asked.
#[derive(Clone, Copy)]
pub struct Times {
    pub units: u32,
    pub exported: Option<f64>,
    pub plain: f64,
    pub original: Option<f64>,
}

pub struct Timed<'a> {
    pub class: &'a Class,
    pub times: Vec<Times>,
}

/// A contender on one case: the calls in a batch, and the least time of a call so far.
struct Lane {
    batch: u32,
    least: f64,
}

impl Lane {
    /// The batch is as large as the time of one call lets it be.
    fn new<T>(mut call: impl FnMut() -> T) -> Lane {
        let start = Instant::now();
        black_box(call());
        let once = start.elapsed().max(Duration::from_nanos(1));
        let batch = (BATCH.as_nanos() / once.as_nanos()).clamp(1, 1_000_000) as u32;
        Lane { batch, least: f64::INFINITY }
    }

    fn round<T>(&mut self, mut call: impl FnMut() -> T) {
        let start = Instant::now();
        for _ in 0..self.batch {
            black_box(call());
        }
        let each = start.elapsed().as_nanos() as f64 / f64::from(self.batch);
        self.least = self.least.min(each);
    }
}

/// The contenders on one case.
struct Lanes<'a> {
    case: &'a Case,
    prepared: Option<Prepared>,
    units: u32,
    exported: Option<Lane>,
    plain: Lane,
    original: Option<Lane>,
}

impl<'a> Lanes<'a> {
    fn new(case: &'a Case, ours: &mut Slices, theirs: &mut Slices) -> Lanes<'a> {
        let prepared = Prepared::new(case);
        let original = prepared.as_ref().map(|asked| Lane::new(|| ask_original(asked)));
        let has_exported = ask_exported(case, ours).is_some();
        Lanes {
            case,
            prepared,
            units: ask_plain(case, theirs)[3],
            exported: has_exported.then(|| Lane::new(|| ask_exported(case, ours))),
            plain: Lane::new(|| ask_plain(case, theirs)),
            original,
        }
    }

    fn round(&mut self, ours: &mut Slices, theirs: &mut Slices) {
        let case = self.case;
        self.plain.round(|| ask_plain(black_box(case), theirs));
        if let Some(lane) = &mut self.exported {
            lane.round(|| ask_exported(black_box(case), ours));
        }
        if let (Some(lane), Some(asked)) = (&mut self.original, &self.prepared) {
            lane.round(|| ask_original(black_box(asked)));
        }
    }

    fn times(&self) -> Times {
        let least = |lane: &Option<Lane>| lane.as_ref().map(|lane| lane.least);
        Times {
            units: self.units,
            exported: least(&self.exported),
            plain: self.plain.least,
            original: least(&self.original),
        }
    }
}

pub fn time(class: &Class) -> Timed<'_> {
    let (mut ours, mut theirs) = (Slices::new(), Slices::new());
    let new = |case| Lanes::new(case, &mut ours, &mut theirs);
    let mut lanes: Vec<Lanes> = class.cases.iter().map(new).collect();
    for _ in 0..ROUNDS {
        lanes.iter_mut().for_each(|lane| lane.round(&mut ours, &mut theirs));
    }
    Timed { class, times: lanes.iter().map(Lanes::times).collect() }
}

/// The exported function over the class, again and again for three seconds.
pub fn exported_alone(class: &Class) {
    let mut slices = Slices::new();
    let start = Instant::now();
    while start.elapsed() < Duration::from_secs(3) {
        for case in &class.cases {
            black_box(ask_exported(black_box(case), &mut slices));
        }
    }
}
