//! The words behind the name of the program `puxerdau`: which command they
//! ask for, with which numbers, or why they are not understood.

use crate::text::read_number;

#[derive(Debug, Clone, Copy, PartialEq, Eq)]
pub enum Command {
    Pair,
    Walk,
    Test,
    Hubs,
    Reports,
    Check,
    Write,
    Export,
    Import,
    Help,
}

/// What the words ask for.
#[derive(Debug, PartialEq, Eq)]
pub struct Question {
    pub command: Command,
    /// A and B, for a command that takes them.
    pub nodes: Vec<u64>,
    /// 0 where none is given.
    pub threshold: u64,
}

impl Question {
    /// The threshold as calls take it. One that does not fit is as far above
    /// the limit as any.
    pub fn given_threshold(&self) -> usize {
        usize::try_from(self.threshold).unwrap_or(usize::MAX)
    }
}

/// A line of the table of commands.
struct Entry {
    command: Command,
    name: &'static str,
    /// How many nodes it takes, 2 or 0.
    nodes: usize,
    threshold: bool,
    /// How its usage ends.
    reads: &'static str,
}

const SURVEY: &str = " < survey.txt";
const FILE: &str = " < edges.col";

/// In the order of the table.
const COMMANDS: [Entry; 10] = [
    entry(Command::Pair, "pair", 2, true, SURVEY),
    entry(Command::Walk, "walk", 2, true, SURVEY),
    entry(Command::Test, "test", 0, true, SURVEY),
    entry(Command::Hubs, "hubs", 0, true, SURVEY),
    entry(Command::Reports, "reports", 0, true, SURVEY),
    entry(Command::Check, "check", 0, false, SURVEY),
    entry(Command::Write, "write", 0, false, SURVEY),
    entry(Command::Export, "export", 0, false, SURVEY),
    entry(Command::Import, "import", 0, false, FILE),
    entry(Command::Help, "help", 0, false, ""),
];

const fn entry(
    command: Command,
    name: &'static str,
    nodes: usize,
    threshold: bool,
    reads: &'static str,
) -> Entry {
    Entry {
        command,
        name,
        nodes,
        threshold,
        reads,
    }
}

/// What the words ask for, or the line that says why they are not
/// understood.
pub fn understand(words: &[&[u8]]) -> Result<Question, String> {
    let Some((name, behind)) = words.split_first() else {
        return Ok(Question {
            command: Command::Help,
            nodes: Vec::new(),
            threshold: 0,
        });
    };
    let Some(entry) = COMMANDS.iter().find(|entry| entry.name.as_bytes() == *name) else {
        return Err(no_command());
    };
    entry
        .take(behind)
        .map_err(|fault| format!("not understood: {fault}; usage: {}", entry.usage()))
}

fn no_command() -> String {
    let names = COMMANDS.map(|entry| entry.name).join(" ");
    format!(
        "not understood: the first word is not a command; \
         usage: puxerdau COMMAND [WORDS ..]{SURVEY}; commands: {names}"
    )
}

/// How a command is used.
pub fn usage(command: Command) -> String {
    let entry = COMMANDS.iter().find(|entry| entry.command == command);
    entry.expect("every command is in the table").usage()
}

impl Entry {
    fn usage(&self) -> String {
        let nodes = if self.nodes > 0 { " A B" } else { "" };
        let threshold = if self.threshold {
            " [--threshold T]"
        } else {
            ""
        };
        format!("puxerdau {}{nodes}{threshold}{}", self.name, self.reads)
    }

    /// Judges the words after the command, which count from 1, from left to
    /// right. The error is the first fault.
    fn take(&self, words: &[&[u8]]) -> Result<Question, String> {
        let missing = || String::from("a word is missing");
        let (mut nodes, mut threshold) = (Vec::new(), None);
        let mut numbered = (1..).zip(words);
        while let Some((place, word)) = numbered.next() {
            // A second `--threshold` is a word like any other.
            if self.threshold && threshold.is_none() && *word == b"--threshold" {
                let (place, word) = numbered.next().ok_or_else(missing)?;
                threshold = Some(take_number(place, word)?);
            } else if nodes.len() < self.nodes {
                nodes.push(take_number(place, word)?);
            } else {
                return Err(format!("word {place} after the command is one too many"));
            }
        }
        if nodes.len() < self.nodes {
            return Err(missing());
        }
        Ok(Question {
            command: self.command,
            nodes,
            threshold: threshold.unwrap_or(0),
        })
    }
}

fn take_number(place: usize, word: &[u8]) -> Result<u64, String> {
    read_number(word).ok_or_else(|| {
        format!(
            "word {place} after the command is not a number (one to ten digits, no leading zero)"
        )
    })
}
