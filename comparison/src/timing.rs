//! The time that each of `CALLS` takes on a survey; those of importing, exporting and listing are measured by `measure` alone.
//!
//! Lists and tables are allocated and written before a measurement and kept through it, so no page is touched for the first time. They
//! are not cleared between repetitions. A time is the least of many repetitions.

use crate::careful;
use crate::common::{Random, Sample};
use std::time::{Duration, Instant};

pub const CALLS: [&str; 7] = ["read", "write", "accept", "build", "ask", "walk", "test"];
pub const PAIRS: usize = 64;

/// A survey with its text and what the calls are lent.
pub struct Lent {
    /// What kind of survey it is.
    pub survey: String,
    pub n: usize,
    /// How many of its nodes are high by the stored table's threshold.
    pub high: usize,
    /// The threshold that calls are given.
    pub threshold: usize,
    pub text: Vec<u8>,
    pub starts: Vec<u32>,
    pub neighbours: Vec<u16>,
    pub read_starts: Vec<u32>,
    pub read_neighbours: Vec<u16>,
    pub buffer: Vec<u8>,
    pub full: Vec<u16>,
    pub low: Vec<u16>,
    pub report: Vec<u16>,
    pub hubs: Vec<u16>,
    pub walk: Vec<u16>,
    /// The pairs that are asked and walked. They are not linked, so that an archive from before linked nodes reported 1 answers alike.
    pub pairs: Vec<(usize, usize)>,
}

/// Seconds for each call of one implementation.
pub type Times = [f64; CALLS.len()];

impl Lent {
    pub fn new(sample: &Sample) -> Self {
        let n = sample.n;
        let (starts, neighbours) = sample.lists();
        let s = reference::threshold(n).expect("1 to 1,024 nodes");
        let mut random = Random::new(n as u64);
        Lent {
            survey: sample.name.trim_end_matches(&format!(" {n}")).into(),
            n,
            high: (0..n).filter(|&v| sample.degree(v) >= s).count(),
            threshold: 0,
            text: sample.text().into_bytes(),
            read_starts: vec![1; n + 1],
            read_neighbours: vec![1; neighbours.len()],
            buffer: vec![1; 200_000],
            full: vec![1; n * n],
            low: vec![1; n * n],
            report: vec![1; n * n],
            hubs: vec![1; n],
            walk: vec![1; 2 * n],
            pairs: std::iter::repeat_with(|| (random.below(n), random.below(n)))
                .filter(|&(a, b)| !sample.linked[a][b])
                .take(PAIRS)
                .collect(),
            starts,
            neighbours,
        }
    }

    /// Builds the tables by careful Rust.
    pub fn build(&mut self) -> Result<usize, u8> {
        careful::build(
            self.n,
            self.threshold,
            &self.starts,
            &self.neighbours,
            &mut self.full,
            &mut self.low,
            &mut self.report,
            &mut self.hubs,
        )
    }

    /// What building leaves.
    pub fn built(&self) -> [&[u16]; 4] {
        [&self.full, &self.low, &self.report, &self.hubs]
    }
}

/// Pairs of linked nodes, some of them more than once where there are few links.
pub fn linked_pairs(sample: &Sample) -> Vec<(usize, usize)> {
    let mut random = Random::new(sample.n as u64);
    let links = sample.links();
    (0..PAIRS)
        .map(|_| links[random.below(links.len())])
        .collect()
}

/// The time given to each measurement, by the program's argument.
pub fn budget() -> Duration {
    let argument = std::env::args().nth(1);
    let milliseconds = argument.and_then(|word| word.parse().ok());
    Duration::from_millis(milliseconds.unwrap_or(250))
}

/// The least time of a repetition.
pub fn least(budget: Duration, mut call: impl FnMut()) -> f64 {
    call();
    let begun = Instant::now();
    let mut least = f64::MAX;
    let mut turns = 1;
    while begun.elapsed() < budget {
        let start = Instant::now();
        for _ in 0..turns {
            call();
        }
        let time = start.elapsed().as_secs_f64();
        least = least.min(time / f64::from(turns));
        if time < 100e-6 {
            turns *= 2;
        }
    }
    least
}

/// The times of one implementation: its calls, by name.
#[macro_export]
macro_rules! times {
    ($lent:expr, $budget:expr, $module:path) => {{
        use std::hint::black_box;
        use $crate::timing::{least, Lent};
        use $module as calls;
        let x: &mut Lent = $lent;
        let read = least($budget, || {
            let _ = black_box(calls::read(
                &x.text,
                &mut x.read_starts,
                &mut x.read_neighbours,
            ));
        });
        let write = least($budget, || {
            let _ = black_box(calls::write(x.n, &x.starts, &x.neighbours, &mut x.buffer));
        });
        let accept = least($budget, || {
            let _ = black_box(calls::accept(x.n, &x.starts, &x.neighbours));
        });
        let build = $crate::build_time!(x, $budget, $module);
        let [ask, walk] = $crate::pair_times!(x, $budget, $module);
        let test = least($budget, || {
            let _ = black_box(calls::test(x.n, x.threshold, &x.starts, &x.neighbours));
        });
        [read, write, accept, build, ask, walk, test]
    }};
}

/// The time of building the tables.
#[macro_export]
macro_rules! build_time {
    ($lent:expr, $budget:expr, $module:path) => {{
        use std::hint::black_box;
        use $crate::timing::{least, Lent};
        use $module as calls;
        let x: &mut Lent = $lent;
        least($budget, || {
            let _ = black_box(calls::build(
                x.n,
                x.threshold,
                &x.starts,
                &x.neighbours,
                &mut x.full,
                &mut x.low,
                &mut x.report,
                &mut x.hubs,
            ));
        })
    }};
}

/// The times of asking and walking one of the pairs, with the tables as they are.
#[macro_export]
macro_rules! pair_times {
    ($lent:expr, $budget:expr, $module:path) => {{
        use std::hint::black_box;
        use $crate::timing::{least, Lent};
        use $module as calls;
        let x: &mut Lent = $lent;
        let ask = least($budget, || {
            for &(a, b) in &x.pairs {
                let _ = black_box(calls::ask(x.n, &x.full, &x.low, &x.report, a, b));
            }
        });
        let walk = least($budget, || {
            for &(a, b) in &x.pairs {
                let _ = black_box(calls::walk(
                    x.n,
                    x.threshold,
                    &x.starts,
                    &x.neighbours,
                    &x.full,
                    &x.low,
                    &x.report,
                    a,
                    b,
                    &mut x.walk,
                ));
            }
        });
        let pairs = x.pairs.len() as f64;
        [ask / pairs, walk / pairs]
    }};
}
