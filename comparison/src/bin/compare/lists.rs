//! The two lists of a survey, damaged, and lengths around a bound.

use comparison::common::Random;

pub struct Lists {
    pub starts: Vec<u32>,
    pub neighbours: Vec<u16>,
}

/// A length at, below or above the one that is wanted, now and then far above.
pub fn length(random: &mut Random, wanted: usize) -> usize {
    match random.below(13) {
        0 => wanted.saturating_sub(1),
        1 => random.below(wanted + 1),
        2 => 0,
        3 | 4 => wanted + 1,
        5 | 6 => wanted + random.below(40),
        7 => 2 * wanted + random.below(5000),
        _ => wanted,
    }
}

/// A list of the given length that holds anything.
pub fn garbage8(random: &mut Random, length: usize) -> Vec<u8> {
    (0..length).map(|_| random.next() as u8).collect()
}

pub fn garbage16(random: &mut Random, length: usize) -> Vec<u16> {
    (0..length).map(|_| random.next() as u16).collect()
}

pub fn garbage32(random: &mut Random, length: usize) -> Vec<u32> {
    (0..length).map(|_| random.next() as u32).collect()
}

/// A number of nodes, or the true one.
pub fn node_count(random: &mut Random, n: usize) -> usize {
    match random.below(40) {
        0 => 0,
        1 => n - 1,
        2 => n + 1,
        3 => 1025,
        4 => usize::MAX,
        5 => n + 65536,
        6 => n + (1 << 32),
        7 => random.below(1100),
        _ => n,
    }
}

/// A node, mostly below n.
pub fn node(random: &mut Random, n: usize) -> usize {
    match random.below(30) {
        0 => n,
        1 => n + 1,
        2 => usize::MAX,
        3 => random.below(n) + 65536,
        4 => random.below(n) + (1 << 32),
        _ => random.below(n),
    }
}

impl Lists {
    /// Lists that are longer than the survey needs, the rest garbage.
    pub fn extend(&mut self, random: &mut Random) {
        let most = if random.percent(80) { 20 } else { 5000 };
        let more = random.below(most);
        self.starts.extend(garbage32(random, more));
        self.neighbours.extend(garbage16(random, more));
    }

    /// One or two faults, some of which leave the lists a survey's.
    pub fn damage(&mut self, random: &mut Random, n: usize) {
        for _ in 0..1 + random.below(2) {
            match random.below(4) {
                0 => self.damage_starts(random),
                1 => self.damage_neighbour(random, n),
                2 => self.damage_row(random, n),
                _ => self.resize(random),
            }
        }
    }

    fn damage_starts(&mut self, random: &mut Random) {
        if self.starts.is_empty() {
            return;
        }
        let (i, j) = (
            random.below(self.starts.len()),
            random.below(self.starts.len()),
        );
        match random.below(6) {
            0 => self.starts[i] = self.starts[i].wrapping_add(1),
            1 => self.starts[i] = self.starts[i].wrapping_sub(1),
            2 => self.starts.swap(i, j),
            3 => self.starts[i] = u32::MAX,
            4 => self.starts[i] = self.starts[j],
            _ => self.starts[i] = random.next() as u32 % 40000,
        }
    }

    fn damage_neighbour(&mut self, random: &mut Random, n: usize) {
        if self.neighbours.is_empty() {
            return;
        }
        let (i, j) = (
            random.below(self.neighbours.len()),
            random.below(self.neighbours.len()),
        );
        match random.below(6) {
            0 => self.neighbours[i] = random.below(n) as u16,
            1 => self.neighbours[i] = n as u16,
            2 => self.neighbours[i] = 65535,
            3 => self.neighbours.swap(i, j),
            4 => self.neighbours[i] = self.neighbours[j],
            _ => self.neighbours[i] ^= 1 << random.below(16),
        }
    }

    /// A fault that keeps the other rows: a link at one end only, another node in its place, a node at itself.
    fn damage_row(&mut self, random: &mut Random, n: usize) {
        if self.starts.len() < n + 1 {
            return;
        }
        let v = random.below(n);
        let (from, to) = (self.starts[v] as usize, self.starts[v + 1] as usize);
        if from > to || to > self.neighbours.len() {
            return;
        }
        let mut row = self.neighbours[from..to].to_vec();
        match random.below(4) {
            0 => {
                row.pop();
            }
            1 => row.push(random.below(n) as u16),
            2 => row.push(v as u16),
            _ => {
                if let Some(x) = row.first_mut() {
                    *x = random.below(n) as u16;
                }
            }
        }
        row.sort_unstable();
        let grown = row.len() as i64 - (to - from) as i64;
        self.neighbours.splice(from..to, row);
        for start in &mut self.starts[v + 1..=n] {
            *start = start.wrapping_add(grown as u32);
        }
    }

    /// Cuts one of the lists, or puts garbage behind it.
    fn resize(&mut self, random: &mut Random) {
        if random.percent(50) {
            let length = length(random, self.starts.len());
            self.starts.resize_with(length, || random.next() as u32);
        } else {
            let length = length(random, self.neighbours.len());
            self.neighbours.resize_with(length, || random.next() as u16);
        }
    }
}
