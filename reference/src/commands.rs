//! Scripts of calls: what running them has in common. The Rattle crate
//! `test_scripts` does the same for the programs `test_surveys` and `test_tables`.

use reference::Tested;

/// A line of a script: its letter and its two numbers.
pub struct Command {
    pub letter: u8,
    pub x: usize,
    pub y: usize,
}

/// What is left of a script.
pub struct Script<'a> {
    rest: &'a [u8],
}

impl<'a> Script<'a> {
    pub fn command(&mut self) -> Option<Command> {
        let end = self.rest.iter().position(|&byte| byte == b'\n')?;
        let line = std::str::from_utf8(&self.rest[..end]).ok()?;
        self.rest = &self.rest[end + 1..];
        let mut fields = line.split(',');
        let letter = *fields.next()?.as_bytes().first()?;
        let x = fields.next()?.parse().ok()?;
        let y = fields.next()?.parse().ok()?;
        Some(Command { letter, x, y })
    }

    pub fn bytes(&mut self, count: usize) -> &'a [u8] {
        let (bytes, rest) = self.rest.split_at(count);
        self.rest = rest;
        bytes
    }
}

/// The lists that a program's calls work on.
pub trait Lists {
    /// The numbers to print; none for a command that only sets an entry.
    fn call(&mut self, command: &Command, script: &mut Script) -> Option<Vec<u64>>;
}

/// The outcomes of all calls, one per line.
pub fn run(script: &[u8], lists: &mut impl Lists) -> String {
    let mut script = Script { rest: script };
    let mut lines = String::new();
    while let Some(command) = script.command() {
        if let Some(numbers) = lists.call(&command, &mut script) {
            lines += &line(command.letter as char, &numbers);
        }
    }
    lines
}

/// A letter and numbers, parted by commas.
pub fn line(letter: char, numbers: &[u64]) -> String {
    let fields: String = numbers.iter().map(|number| format!(",{number}")).collect();
    format!("{letter}{fields}\n")
}

/// Reading a survey text or importing a file, into the two lists.
pub type Reading = fn(&[u8], &mut [u32], &mut [u16]) -> Result<(usize, usize), u8>;

/// Reads the text that follows the command.
pub fn run_reading(
    reading: Reading,
    command: &Command,
    script: &mut Script,
    starts: &mut [u32],
    neighbours: &mut [u16],
) -> Option<Vec<u64>> {
    let count = script.command()?.x;
    let text = script.bytes(count);
    let answer = reading(text, &mut starts[..command.x], &mut neighbours[..command.y]);
    let answer = answer.map(|(n, m)| vec![n as u64, m as u64]);
    Some(outcome(answer, 2, &[sum(starts), sum(neighbours)]))
}

/// 0 and the answer, or the refusal's number and as many zeros; then sums.
pub fn outcome(answer: Result<Vec<u64>, u8>, size: usize, sums: &[u64]) -> Vec<u64> {
    let mut numbers = match answer {
        Ok(numbers) => [vec![0], numbers].concat(),
        Err(refusal) => [vec![u64::from(refusal)], vec![0; size]].concat(),
    };
    numbers.extend(sums);
    numbers
}

/// The verdict and the count of searches.
pub fn test_numbers(tested: Tested) -> Vec<u64> {
    vec![u64::from(tested.verdict.number()), tested.searches as u64]
}

/// A sum that depends on every entry and on its place in the list.
pub fn sum<T: Copy + Into<u64>>(list: &[T]) -> u64 {
    list.iter()
        .fold(0, |sum, &entry| (sum * 31 + entry.into()) % 1_000_000_007)
}
