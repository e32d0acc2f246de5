//! Runs a script of reading, acceptance and writing back, and of importing and exporting. The Rattle program `test_surveys` runs the same
//! scripts; its source describes their lines.

use crate::commands::{self, outcome, run_reading, sum, Command, Reading, Script};
use reference::{accept, export, import, read, write};

/// Writing a survey back or exporting it, into the buffer.
type Writing = fn(usize, &[u32], &[u16], &mut [u8]) -> Result<usize, u8>;

/// Each call is lent the first entries of these lists.
struct Lists {
    starts: Vec<u32>,
    neighbours: Vec<u16>,
    buffer: Vec<u8>,
}

/// The outcomes of all calls, one per line.
pub fn run(script: &[u8]) -> String {
    let mut lists = Lists {
        starts: vec![7; 1100],
        neighbours: vec![7; 33000],
        buffer: vec![35; 4096],
    };
    commands::run(script, &mut lists)
}

impl commands::Lists for Lists {
    fn call(&mut self, command: &Command, script: &mut Script) -> Option<Vec<u64>> {
        let (x, y) = (command.x, command.y);
        match command.letter {
            b'R' => self.run_reading(read, command, script),
            b'I' => self.run_reading(import, command, script),
            b'A' => {
                let lengths = script.command()?;
                let (starts, neighbours) = self.lent(&lengths);
                let answer = accept(x, starts, neighbours);
                Some(outcome(answer.map(|()| vec![]), 0, &[]))
            }
            b'W' => self.run_writing(write, command, script),
            b'X' => self.run_writing(export, command, script),
            b'S' => {
                self.starts[x] = y as u32;
                None
            }
            b'E' => {
                self.neighbours[x] = y as u16;
                None
            }
            letter => panic!("no such command: {}", letter as char),
        }
    }
}

impl Lists {
    fn run_reading(
        &mut self,
        reading: Reading,
        command: &Command,
        script: &mut Script,
    ) -> Option<Vec<u64>> {
        let (starts, neighbours) = (&mut self.starts, &mut self.neighbours);
        run_reading(reading, command, script, starts, neighbours)
    }

    fn run_writing(
        &mut self,
        writing: Writing,
        command: &Command,
        script: &mut Script,
    ) -> Option<Vec<u64>> {
        let lengths = script.command()?;
        let mut buffer = std::mem::take(&mut self.buffer);
        let (starts, neighbours) = self.lent(&lengths);
        let answer = writing(command.x, starts, neighbours, &mut buffer[..command.y]);
        self.buffer = buffer;
        let answer = answer.map(|length| vec![length as u64]);
        Some(outcome(answer, 1, &[sum(&self.buffer)]))
    }

    fn lent(&self, lengths: &Command) -> (&[u32], &[u16]) {
        (&self.starts[..lengths.x], &self.neighbours[..lengths.y])
    }
}
