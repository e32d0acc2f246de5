//! Checks of reading a survey text and of importing a planners' file, which
//! go the same way: each text against what it must give, and texts damaged
//! in many ways.

use super::{from_links, Random};
use std::collections::BTreeSet;

pub type Links = BTreeSet<(usize, usize)>;

/// How often each refusal was met; 0 stands for success.
pub type Counts = [usize; 14];

type Read = fn(&[u8], &mut [u32], &mut [u16]) -> Result<(usize, usize), u8>;
type Expected = fn(&[u8], usize, usize) -> Result<(usize, Links), u8>;

pub struct Reading {
    pub read: Read,
    /// What a reading into lists of these lengths must give: n and the links.
    pub expected: Expected,
}

/// How a text is damaged.
pub struct Damage {
    pub counts_line: fn(usize, usize) -> String,
    /// The chance of other counts.
    pub chance: usize,
    pub bytes: &'static [u8],
}

/// Judges 2 and 3, then 8 by the lengths of the lists.
pub fn check_counts(n: u64, m: u64, starts: usize, neighbours: usize) -> Result<(), u8> {
    if !(1..=1024).contains(&n) {
        return Err(2);
    }
    if m > 16384 {
        return Err(3);
    }
    if (starts as u64) < n + 1 || (neighbours as u64) < 2 * m {
        return Err(8);
    }
    Ok(())
}

impl Reading {
    /// Reads and compares with `expected`; the answer is the refusal or 0.
    pub fn check_lengths(&self, text: &[u8], starts: usize, neighbours: usize) -> u8 {
        let mut starts = vec![9; starts];
        let mut neighbours = vec![9; neighbours];
        let found = (self.read)(text, &mut starts, &mut neighbours);
        let expected = (self.expected)(text, starts.len(), neighbours.len());
        let answer = expected.as_ref().map(|(n, links)| (*n, links.len()));
        let shown = String::from_utf8_lossy(text);
        assert_eq!(found, answer.map_err(|&refusal| refusal), "{shown:?}");
        // A refusal leaves both lists zero.
        let (n, links) = expected.unwrap_or_default();
        let links: Vec<_> = links.into_iter().collect();
        let (mut all_starts, mut all_neighbours) = from_links("", n, &links).lists();
        all_starts.resize(starts.len(), 0);
        all_neighbours.resize(neighbours.len(), 0);
        assert_eq!((starts, neighbours), (all_starts, all_neighbours));
        found.err().unwrap_or(0)
    }

    pub fn check(&self, text: &[u8]) -> u8 {
        self.check_lengths(text, 1025, 32768)
    }

    #[track_caller]
    pub fn check_all(&self, refusal: u8, texts: &[&str]) {
        for text in texts {
            assert_eq!(self.check(text.as_bytes()), refusal, "{text:?}");
        }
    }

    /// Texts, the lengths of lists for them, and the refusals.
    #[track_caller]
    pub fn check_all_lengths(&self, cases: &[(&str, usize, usize, u8)]) {
        for &(text, starts, neighbours, refusal) in cases {
            let found = self.check_lengths(text.as_bytes(), starts, neighbours);
            assert_eq!(found, refusal, "{text:?} {starts} {neighbours}");
        }
    }

    pub fn change_every_byte(&self, text: &str) {
        let mut bytes = text.as_bytes().to_vec();
        for place in 0..bytes.len() {
            let old = bytes[place];
            for byte in 0..=255 {
                bytes[place] = byte;
                self.check(&bytes);
            }
            bytes[place] = old;
        }
    }

    /// Removes every byte, puts each of the given bytes before it, and swaps
    /// it with every other.
    pub fn remove_insert_and_swap(&self, text: &str, inserted: &[u8]) {
        for place in 0..text.len() {
            let mut fewer = text.as_bytes().to_vec();
            fewer.remove(place);
            self.check(&fewer);
            for &byte in inserted {
                let mut more = text.as_bytes().to_vec();
                more.insert(place, byte);
                self.check(&more);
            }
            for other in 0..place {
                let mut swapped = text.as_bytes().to_vec();
                swapped.swap(place, other);
                self.check(&swapped);
            }
        }
    }

    /// Lines repeated, dropped and exchanged at random, now and then other
    /// counts, and some bytes changed. The text is read into lists of any
    /// length, and into long ones.
    pub fn damage(&self, random: &mut Random, text: &[u8], damage: &Damage, counts: &mut Counts) {
        let mut lines: Vec<Vec<u8>> = text
            .split_inclusive(|&byte| byte == b'\n')
            .map(<[u8]>::to_vec)
            .collect();
        for _ in 0..random.below(3) {
            let (from, to) = (random.below(lines.len()), random.below(lines.len()));
            match random.below(3) {
                0 => lines[to] = lines[from].clone(),
                1 => lines.swap(from, to),
                _ => lines.insert(to, lines[from].clone()),
            }
        }
        if random.percent(damage.chance) {
            let some = [0, 2 + random.below(9), 1024, 1025, 16384, 16385, 4294967297];
            let (nodes, links) = (some[random.below(7)], some[random.below(7)]);
            lines[0] = (damage.counts_line)(nodes, links).into_bytes();
        }
        let mut bytes = lines.concat();
        for _ in 0..random.below(3) {
            let place = random.below(bytes.len());
            bytes[place] = damage.bytes[random.below(damage.bytes.len())];
        }
        let (starts, neighbours) = (random.below(40), random.below(160));
        counts[self.check_lengths(&bytes, starts, neighbours) as usize] += 1;
        counts[self.check(&bytes) as usize] += 1;
    }
}

/// The beginning of a good line, and behind it any bytes, mostly given ones.
pub fn random_bytes(random: &mut Random, front: &[u8], mostly: &[u8]) -> Vec<u8> {
    let mut bytes = front[..random.below(front.len() + 1)].to_vec();
    for _ in 0..random.below(40) {
        let byte = match random.below(4) {
            0 => random.next() as u8,
            _ => mostly[random.below(mostly.len())],
        };
        bytes.push(byte);
    }
    bytes
}

/// Whether the refusals that can be were met often, and no other one.
pub fn assert_met(counts: &Counts, refusals: &[usize]) {
    println!("{counts:?}");
    for (refusal, &count) in counts.iter().enumerate() {
        let can_be = refusals.contains(&refusal);
        assert!(if can_be { count > 10 } else { count == 0 }, "{refusal}");
    }
}
