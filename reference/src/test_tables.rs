//! Runs a script of building, asking, walking and testing. The Rattle
//! program `test_tables` runs the same scripts; its source describes their
//! lines.

use crate::commands::{self, outcome, run_reading, sum, test_numbers, Command, Script};
use reference::{ask, build, read, test, walk, Answer};

/// The lengths of the lists; the count of nodes and the threshold are 0.
pub const LENGTHS: Numbers = [0, 1100, 33000, 22600, 22600, 22600, 160, 320, 0];

/// The numbers that command N sets: the count of nodes, then how many
/// entries of each list are lent, then the threshold.
pub type Numbers = [usize; 9];

pub const NODES: usize = 0;
pub const STARTS: usize = 1;
pub const NEIGHBOURS: usize = 2;
pub const FULL: usize = 3;
pub const LOW: usize = 4;
pub const REPORT: usize = 5;
pub const HUBS: usize = 6;
pub const WALK: usize = 7;
pub const THRESHOLD: usize = 8;

struct Lists {
    numbers: Numbers,
    starts: Vec<u32>,
    neighbours: Vec<u16>,
    full: Vec<u16>,
    low: Vec<u16>,
    report: Vec<u16>,
    hubs: Vec<u16>,
    walk: Vec<u16>,
}

/// The outcomes of all calls, one per line.
pub fn run(script: &[u8]) -> String {
    let mut lists = Lists {
        numbers: [0; 9],
        starts: vec![7; LENGTHS[STARTS]],
        neighbours: vec![7; LENGTHS[NEIGHBOURS]],
        full: vec![7; LENGTHS[FULL]],
        low: vec![7; LENGTHS[LOW]],
        report: vec![7; LENGTHS[REPORT]],
        hubs: vec![7; LENGTHS[HUBS]],
        walk: vec![7; LENGTHS[WALK]],
    };
    commands::run(script, &mut lists)
}

impl commands::Lists for Lists {
    fn call(&mut self, command: &Command, script: &mut Script) -> Option<Vec<u64>> {
        let (x, y) = (command.x, command.y);
        match command.letter {
            b'R' => {
                return run_reading(
                    read,
                    command,
                    script,
                    &mut self.starts,
                    &mut self.neighbours,
                )
            }
            b'B' => return Some(self.build()),
            b'V' => return Some(self.entries(x)),
            b'Q' => return Some(self.ask(x, y)),
            b'W' => return Some(self.walk(x, y)),
            b'T' => return Some(self.test()),
            b'N' => self.numbers[x] = y,
            b'S' => self.starts[x] = y as u32,
            b'E' => self.neighbours[x] = y as u16,
            b'F' => self.full[x] = y as u16,
            b'L' => self.low[x] = y as u16,
            b'P' => self.report[x] = y as u16,
            b'H' => self.hubs[x] = y as u16,
            letter => panic!("no such command: {}", letter as char),
        }
        None
    }
}

impl Lists {
    fn build(&mut self) -> Vec<u64> {
        let lent = self.numbers;
        let answer = build(
            lent[NODES],
            lent[THRESHOLD],
            &self.starts[..lent[STARTS]],
            &self.neighbours[..lent[NEIGHBOURS]],
            &mut self.full[..lent[FULL]],
            &mut self.low[..lent[LOW]],
            &mut self.report[..lent[REPORT]],
            &mut self.hubs[..lent[HUBS]],
        );
        let sums = [&self.full, &self.low, &self.report, &self.hubs].map(|list| sum(list));
        outcome(answer.map(|count| vec![count as u64]), 1, &sums)
    }

    /// The entries that are lent of a list.
    fn entries(&self, which: usize) -> Vec<u64> {
        let list = match which {
            FULL => &self.full,
            LOW => &self.low,
            REPORT => &self.report,
            _ => &self.hubs,
        };
        let lent = &list[..self.numbers[which]];
        lent.iter().map(|&entry| u64::from(entry)).collect()
    }

    fn ask(&self, a: usize, b: usize) -> Vec<u64> {
        let lent = self.numbers;
        let answer = ask(
            lent[NODES],
            &self.full[..lent[FULL]],
            &self.low[..lent[LOW]],
            &self.report[..lent[REPORT]],
            a,
            b,
        );
        // Asking writes to no list: its sum is 0.
        outcome(answer.map(answer_numbers), 3, &[0])
    }

    fn walk(&mut self, a: usize, b: usize) -> Vec<u64> {
        let lent = self.numbers;
        let answer = walk(
            lent[NODES],
            lent[THRESHOLD],
            &self.starts[..lent[STARTS]],
            &self.neighbours[..lent[NEIGHBOURS]],
            &self.full[..lent[FULL]],
            &self.low[..lent[LOW]],
            &self.report[..lent[REPORT]],
            a,
            b,
            &mut self.walk[..lent[WALK]],
        );
        outcome(answer.map(answer_numbers), 3, &[sum(&self.walk)])
    }

    fn test(&self) -> Vec<u64> {
        let lent = self.numbers;
        let answer = test(
            lent[NODES],
            lent[THRESHOLD],
            &self.starts[..lent[STARTS]],
            &self.neighbours[..lent[NEIGHBOURS]],
        );
        outcome(answer.map(test_numbers), 2, &[])
    }
}

/// The report, the route and its hub.
fn answer_numbers(answer: Answer) -> Vec<u64> {
    let route = answer.route;
    [answer.report, route.number(), route.hub_number()]
        .map(u64::from)
        .to_vec()
}
