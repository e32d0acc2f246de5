//! Surveys with a wanted count of nodes, links and high nodes.

use crate::common::{self, Random, Sample};

struct Growing<'a> {
    random: &'a mut Random,
    sample: Sample,
    degrees: Vec<usize>,
    high: Vec<bool>,
    threshold: usize,
    links: usize,
}

impl Growing<'_> {
    /// A low node must stay low.
    fn has_room(&self, v: usize) -> bool {
        self.high[v] || self.degrees[v] + 1 < self.threshold
    }

    fn try_link(&mut self, a: usize, b: usize) {
        if a != b && !self.sample.linked[a][b] && self.has_room(a) && self.has_room(b) {
            self.sample.link(a, b);
            self.degrees[a] += 1;
            self.degrees[b] += 1;
            self.links += 1;
        }
    }

    /// Gives a high node a degree above the threshold.
    fn raise(&mut self, h: usize, most_links: usize) {
        let goal = (self.threshold + self.threshold / 4).min(self.sample.n - 1);
        for _ in 0..50 * self.sample.n {
            if self.degrees[h] >= goal || self.links >= most_links {
                return;
            }
            let v = self.random.below(self.sample.n);
            self.try_link(h, v);
        }
    }

    /// Adds random links from the given nodes to any node.
    fn fill(&mut self, from: &[usize], most_links: usize) {
        for _ in 0..60 * most_links {
            if self.links >= most_links || from.is_empty() {
                return;
            }
            let a = from[self.random.below(from.len())];
            let b = self.random.below(self.sample.n);
            self.try_link(a, b);
        }
    }
}

/// About `links` random links on n nodes, of which the given count is high.
pub fn with_high(random: &mut Random, n: usize, links: usize, high: usize) -> Sample {
    let mut numbers: Vec<usize> = (0..n).collect();
    random.shuffle(&mut numbers);
    let (above, below) = numbers.split_at(high.min(n));
    let mut growing = Growing {
        random,
        sample: Sample::new("random", n),
        degrees: vec![0; n],
        high: vec![false; n],
        threshold: reference::threshold(n).expect("1 to 1,024 nodes"),
        links: 0,
    };
    for &h in above {
        growing.high[h] = true;
    }
    for &h in above {
        growing.raise(h, links);
    }
    growing.fill(below, links);
    growing.fill(above, links);
    growing.sample
}

/// Exactly `links` random links on n nodes.
pub fn with_links(random: &mut Random, n: usize, links: usize) -> Sample {
    let mut sample = Sample::new("random", n);
    let mut left = links;
    while left > 0 {
        let (a, b) = (random.below(n), random.below(n));
        if a != b && !sample.linked[a][b] {
            sample.link(a, b);
            left -= 1;
        }
    }
    sample
}

/// Rows of `width` nodes, each node linked to the next of its row and of its column.
pub fn grid(n: usize, width: usize) -> Sample {
    let mut sample = Sample::new("grid", n);
    for v in 0..n {
        if v % width + 1 < width && v + 1 < n {
            sample.link(v, v + 1);
        }
        if v + width < n {
            sample.link(v, v + width);
        }
    }
    sample
}

/// A random survey: sparse (two links a node) or as many links as fit, with no, some or many high nodes.
pub fn random_survey(n: usize, dense: bool, share: usize) -> Sample {
    let s = reference::threshold(n).expect("1 to 1,024 nodes");
    let links = if dense { 16384 } else { 2 * n };
    let many = match (dense, n) {
        (false, _) => 2 * n / s,
        (true, 1024) => 120,
        (true, _) => n / 2,
    };
    let high = [0, many / 4, many][share];
    with_high(&mut Random::new(n as u64 + links as u64), n, links, high)
}

/// The six random surveys of n nodes that speeds are measured on.
pub fn random_surveys(n: usize) -> Vec<Sample> {
    let kinds = [false, true].map(|dense| [0, 1, 2].map(|share| (dense, share)));
    let each = kinds.into_iter().flatten();
    each.map(|(dense, share)| random_survey(n, dense, share))
        .collect()
}

/// Node 0 alone, and a path of all others.
fn parted(n: usize) -> Sample {
    let links: Vec<_> = (2..n).map(|v| (v - 1, v)).collect();
    common::from_links("parted", n, &links)
}

/// All surveys of 1,024 nodes that speeds are measured on.
pub fn largest_surveys() -> Vec<Sample> {
    let mut samples = random_surveys(1024);
    samples.extend([
        common::path(1024),
        parted(1024),
        grid(1024, 32),
        common::star(1024, 0),
    ]);
    samples
}
