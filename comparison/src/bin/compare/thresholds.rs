//! Thresholds for the calls that split nodes, and which of them were met.

use crate::pairs::print_table;
use comparison::common::Random;
use reference::{Answer, Route};

/// The calls that split nodes.
#[derive(Clone, Copy)]
pub enum Splitting {
    Build,
    Walk,
    Test,
}

/// The calls in their order.
const CALLS: [&str; 3] = ["build", "walk", "test"];

/// The thresholds that have to be met. One can be of several kinds.
const KINDS: [&str; 8] = ["0", "1", "2", "s(n)", "n", "1,024", "1,025", "largest"];

/// What comes of a walk by built tables where another threshold splits the nodes otherwise.
const WALKS: [&str; 2] = ["by low nodes", "refused 11"];

/// The largest threshold that is taken. No node is high by it.
pub const MOST: usize = 1024;

/// Thresholds that are refused, among them some whose lowest bits alone would be taken.
const REFUSED: [usize; 6] = [MOST + 1, 65541, 1 << 32, (1 << 32) + 5, 1 << 63, usize::MAX];

/// A threshold for n nodes that is taken: often the stored table's, or one at a bound, or at the degree of a node.
pub fn taken(random: &mut Random, n: usize, degree: usize) -> usize {
    let s = reference::threshold(n).expect("1 to 1,024 nodes");
    let threshold = match random.below(20) {
        0..=5 => 0,
        6 => 1,
        7 => 2,
        8 => s,
        9 => s - 1,
        10 => s + 1,
        11 => n,
        12 => n + 1,
        13 => MOST,
        14 => random.below(12),
        15 => random.below(MOST),
        _ => degree + random.below(2),
    };
    threshold.min(MOST)
}

/// Any threshold, mostly one that is taken.
pub fn any(random: &mut Random, n: usize, degree: usize) -> usize {
    if random.percent(86) {
        taken(random, n, degree)
    } else {
        REFUSED[random.below(REFUSED.len())]
    }
}

/// How a call splits nodes: by a survey's lists and the threshold that it is given.
pub struct Split<'a> {
    n: usize,
    threshold: usize,
    starts: &'a [u32],
}

impl<'a> Split<'a> {
    pub fn new(n: usize, threshold: usize, starts: &'a [u32]) -> Self {
        Split {
            n,
            threshold,
            starts,
        }
    }

    /// Whether another threshold gives the same high nodes.
    pub fn is_by(&self, other: usize) -> bool {
        let [own, other] = [self.threshold, other].map(|threshold| in_force(self.n, threshold));
        self.starts[..=self.n].windows(2).all(|pair| {
            let degree = (pair[1] - pair[0]) as usize;
            (degree >= own) == (degree >= other)
        })
    }
}

/// The threshold that n nodes are split by.
fn in_force(n: usize, threshold: usize) -> usize {
    if threshold == 0 {
        reference::threshold(n).expect("1 to 1,024 nodes")
    } else {
        threshold
    }
}

#[derive(Default)]
pub struct Met {
    /// Calls that were answered or refused 14, by the kinds of their thresholds.
    kinds: [[u64; KINDS.len()]; CALLS.len()],
    /// Calls that were answered and split the nodes otherwise than by s(n).
    others: [u64; CALLS.len()],
    walks: [u64; WALKS.len()],
}

impl Met {
    pub fn count<T>(&mut self, call: Splitting, split: &Split, answer: &Result<T, u8>) {
        if !matches!(answer, Ok(_) | Err(14)) {
            return;
        }
        let (n, s) = (split.n, in_force(split.n, 0));
        let kinds = [0, 1, 2, s, n, MOST, MOST + 1, usize::MAX];
        for (count, kind) in self.kinds[call as usize].iter_mut().zip(kinds) {
            *count += u64::from(split.threshold == kind);
        }
        if answer.is_ok() && !split.is_by(0) {
            self.others[call as usize] += 1;
        }
    }

    /// Counts a walk by built tables for which its threshold splits the nodes otherwise than theirs.
    pub fn count_walk(&mut self, answer: Result<Answer, u8>) {
        match answer.map(|answer| answer.route) {
            Ok(Route::Low) => self.walks[0] += 1,
            Err(11) => self.walks[1] += 1,
            _ => {}
        }
    }

    /// What was met how often, by name.
    pub fn named(&self) -> Vec<(String, u64)> {
        let mut all = Vec::new();
        for (call, counts) in CALLS.iter().zip(self.kinds) {
            let names = KINDS.map(|kind| format!("{call} with threshold {kind}"));
            all.extend(names.into_iter().zip(counts));
        }
        let others = CALLS.map(|call| format!("{call} by another split than that of s(n)"));
        all.extend(others.into_iter().zip(self.others));
        let walks = WALKS.map(|what| format!("walk by another split than the tables' {what}"));
        all.extend(walks.into_iter().zip(self.walks));
        all
    }

    pub fn print(&self) {
        println!("the thresholds of calls that were answered or refused 14:");
        print_table(&KINDS, &CALLS, &self.kinds);
        let [built, walked, tested] = self.others;
        println!("answered where nodes are split otherwise than by s(n): {built} built, {walked} walked, {tested} tested");
        let [low, refused] = self.walks;
        println!("walks by built tables where nodes are split otherwise than theirs: {low} by low nodes, {refused} refused 11");
    }
}
