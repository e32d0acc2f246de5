//! The three tables, built by some threshold or altered.

use comparison::common::{self, Random, Sample};
use reference::NONE;

/// Which tables they are.
#[derive(Clone, Copy, PartialEq)]
pub enum Kind {
    Built,
    BeforeLinks,
    AllOnes,
    Altered,
}

/// The kinds in their order.
pub const KINDS: [&str; 4] = [
    "as they were built",
    "with reports from before linked nodes reported 1",
    "with a report of 1 for every pair",
    "altered",
];

/// Which of them a call is lent.
pub fn kind(random: &mut Random) -> Kind {
    match random.below(20) {
        0..=7 => Kind::Built,
        8..=10 => Kind::BeforeLinks,
        11 => Kind::AllOnes,
        _ => Kind::Altered,
    }
}

pub struct Tables {
    pub full: Vec<u16>,
    pub low: Vec<u16>,
    pub report: Vec<u16>,
}

impl Tables {
    pub fn put_back(&mut self, sample: &Sample) {
        common::put_back(sample, &self.full, &self.low, &mut self.report);
    }

    /// The report of two of n nodes, if there is such an entry.
    pub fn report_of(&self, n: usize, a: usize, b: usize) -> Option<u16> {
        let place = a.wrapping_mul(n).wrapping_add(b);
        self.report.get(place).copied()
    }

    fn pick(&mut self, random: &mut Random) -> &mut Vec<u16> {
        match random.below(3) {
            0 => &mut self.full,
            1 => &mut self.low,
            _ => &mut self.report,
        }
    }

    /// Alters entries, some of them those that pair (a, b) is answered from.
    pub fn alter(&mut self, random: &mut Random, n: usize, a: usize, b: usize) {
        let (a, b) = (a % n, b % n);
        for _ in 0..1 + random.below(3) {
            match random.below(7) {
                0 => self.alter_entries(random, n),
                1 => self.alter_all(random),
                2 => self.alter_route(random, n, a, b),
                3 => self.alter_report(random, n, a, b),
                4 => self.swap(random),
                5 => self.alter_to_one(random, n, a, b),
                _ => self.resize(random, n),
            }
        }
    }

    fn alter_entries(&mut self, random: &mut Random, n: usize) {
        let count = 1 + random.below(2 * n);
        let table = self.pick(random);
        for _ in 0..count {
            if table.is_empty() {
                return;
            }
            let place = random.below(table.len());
            table[place] = entry(random);
        }
    }

    fn alter_all(&mut self, random: &mut Random) {
        for x in self.pick(random) {
            *x = entry(random);
        }
    }

    /// A report that the smallest hubs, or low nodes, attain by any numbers, also by a sum that would wrap.
    fn alter_route(&mut self, random: &mut Random, n: usize, a: usize, b: usize) {
        if self.full.len() < n * n || self.low.len() < n * n || self.report.len() < n * n {
            return;
        }
        let h = random.below(n);
        let (x, y) = if random.percent(30) {
            (random.next() as u16, random.next() as u16)
        } else {
            (random.below(4) as u16, random.below(4) as u16)
        };
        self.full[h * n + a] = x;
        self.full[h * n + b] = y;
        self.report[a * n + b] = x.wrapping_add(y);
        if random.percent(50) {
            self.low[a * n + b] = x.wrapping_add(y);
        }
    }

    fn alter_report(&mut self, random: &mut Random, n: usize, a: usize, b: usize) {
        if let Some(x) = self.report.get_mut(a * n + b) {
            *x = match random.below(4) {
                0 => x.wrapping_add(1),
                1 => x.wrapping_sub(1),
                2 => NONE,
                _ => random.below(6) as u16,
            };
        }
    }

    /// A report of 1 that Low attains, or a hub, or both, or neither.
    fn alter_to_one(&mut self, random: &mut Random, n: usize, a: usize, b: usize) {
        if self.full.len() < n * n || self.low.len() < n * n || self.report.len() < n * n {
            return;
        }
        self.report[a * n + b] = 1;
        self.low[a * n + b] = if random.percent(50) { 1 } else { NONE };
        let h = random.below(n);
        self.full[h * n + a] = 0;
        self.full[h * n + b] = if random.percent(50) { 1 } else { NONE };
    }

    fn swap(&mut self, random: &mut Random) {
        match random.below(3) {
            0 => std::mem::swap(&mut self.full, &mut self.low),
            1 => std::mem::swap(&mut self.low, &mut self.report),
            _ => std::mem::swap(&mut self.full, &mut self.report),
        }
    }

    /// Cuts one of the tables, or puts garbage behind it.
    fn resize(&mut self, random: &mut Random, n: usize) {
        let length = super::lists::length(random, n * n);
        self.pick(random)
            .resize_with(length, || random.next() as u16);
    }
}

fn entry(random: &mut Random) -> u16 {
    match random.below(4) {
        0 => NONE,
        1 => random.next() as u16,
        _ => random.below(5) as u16,
    }
}
