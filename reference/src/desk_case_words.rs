//! Words on which the program `puxerdau` is run.

use crate::common::{thresholds, Random};
use crate::comparison::one_of;
use crate::desk_case_texts::NUMBERS;

/// A command, and which words it takes.
#[derive(Clone, Copy)]
pub struct Command {
    pub name: &'static str,
    nodes: usize,
    threshold: bool,
}

pub const COMMANDS: [Command; 10] = [
    command("pair", 2, true),
    command("walk", 2, true),
    command("test", 0, true),
    command("hubs", 0, true),
    command("reports", 0, true),
    command("check", 0, false),
    command("write", 0, false),
    command("export", 0, false),
    command("import", 0, false),
    command("help", 0, false),
];

const fn command(name: &'static str, nodes: usize, threshold: bool) -> Command {
    Command {
        name,
        nodes,
        threshold,
    }
}

impl Command {
    /// The fewest words that are understood.
    pub fn few_words(&self) -> Vec<Vec<u8>> {
        let nodes = vec![b"0".to_vec(); self.nodes];
        [vec![self.name.as_bytes().to_vec()], nodes].concat()
    }
}

const THRESHOLD: &[u8] = b"--threshold";

/// Words that look like a number or like `--threshold`, or like neither. The
/// last two are numbers.
const ODD_WORDS: [&[u8]; 33] = [
    b"",
    b" ",
    b"-",
    b"--",
    b"-1",
    b"+1",
    b"00",
    b"01",
    b"0000000001",
    b"00000000001",
    b"10000000000",
    b"12345678901",
    b"18446744073709551616",
    b"1 ",
    b" 1",
    b"1\n",
    b"\n1",
    b"1 2",
    b"1\t",
    b"1,2",
    b"1.0",
    b"0x1",
    b"one",
    b"\xff",
    b"\x801",
    b"1\xb2",
    "\u{0663}".as_bytes(),
    b"--threshold=3",
    b"--threshold ",
    b"-threshold",
    b"--THRESHOLD",
    b"9999999999",
    b"7",
];

/// Words of 10, 11 and 12 bytes that begin like `--threshold`.
const NEAR_THRESHOLDS: [&[u8]; 3] = [b"--threshol", b"--threshole", b"--thresholds"];

/// Words that look like a command.
const NO_COMMANDS: [&[u8]; 16] = [
    b"",
    b"pairs",
    b"pai",
    b"Pair",
    b"walk ",
    b"\ntest",
    b"test\n",
    b"hub",
    b"hubs\xff",
    b"report",
    b"check,",
    b"imports",
    b"--help",
    b"-h",
    b"--threshold",
    b"1",
];

/// The commands with most words, and the one that reads another format, come
/// more often.
pub fn any_command(random: &mut Random) -> Command {
    match random.below(10) {
        0 => COMMANDS[0],
        1 => COMMANDS[1],
        2 => COMMANDS[8],
        _ => one_of(random, &COMMANDS),
    }
}

/// Words for a survey of n nodes, mostly right ones.
pub fn any_words(random: &mut Random, command: Command, n: usize) -> Vec<Vec<u8>> {
    let mut words = right_words(random, command, n);
    if random.percent(if command.threshold { 30 } else { 15 }) {
        for _ in 0..1 + random.below(2) {
            spoil_words(random, &mut words, n);
        }
    } else if random.percent(1) {
        words.clear();
    }
    words
}

/// Words that are understood, though their numbers may be refused.
fn right_words(random: &mut Random, command: Command, n: usize) -> Vec<Vec<u8>> {
    let mut words = vec![command.name.as_bytes().to_vec()];
    for _ in 0..command.nodes {
        words.push(any_node(random, n));
    }
    if command.threshold && random.percent(50) {
        let place = 1 + random.below(words.len());
        let threshold = any_threshold(random, n);
        words.splice(place..place, [THRESHOLD.to_vec(), threshold]);
    }
    words
}

fn any_node(random: &mut Random, n: usize) -> Vec<u8> {
    let node = random.below(n) as u64;
    let node = match random.below(20) {
        0 => n as u64,
        1 => n as u64 - 1,
        // A node again, if too few bits are kept.
        2 => node + one_of(random, &[1 << 16, 1 << 32]),
        3 => one_of(random, &NUMBERS),
        4 => ten_digits(random),
        _ => node,
    };
    node.to_string().into_bytes()
}

fn any_threshold(random: &mut Random, n: usize) -> Vec<u8> {
    let threshold = match random.below(10) {
        0 => random.below(1025) as u64,
        1 => one_of(random, &[0, 1, 1024, 1025, 9999999999]),
        2 if random.percent(50) => ten_digits(random),
        2 => one_of(random, &NUMBERS),
        // A threshold again, if too few bits are kept.
        3 => 1 + one_of(random, &[1 << 16, 1 << 32]),
        _ => one_of(random, &thresholds(n)) as u64,
    };
    threshold.to_string().into_bytes()
}

/// One change that words are mostly not understood by.
fn spoil_words(random: &mut Random, words: &mut Vec<Vec<u8>>, n: usize) {
    // Mostly after the command.
    let place = if random.percent(15) {
        0
    } else {
        1.min(words.len()) + random.below(words.len().max(1))
    };
    match random.below(13) {
        0 => words.insert(place, odd_word(random)),
        1 => words.insert(place, THRESHOLD.to_vec()),
        10 | 11 => words.push(THRESHOLD.to_vec()),
        // Where there is one, it is the second.
        2 => words.extend([THRESHOLD.to_vec(), any_threshold(random, n)]),
        3 => words.truncate(place),
        4 if place < words.len() => {
            words.remove(place);
        }
        5 if place < words.len() => words.insert(place, words[place].clone()),
        6 | 9 if place < words.len() => words[place] = odd_word(random),
        7 if !words.is_empty() => words[0] = no_command(random),
        8 => nearly_give_threshold(random, words, n),
        _ => {
            let count = one_of(random, &[1, 2, 300]);
            words.extend((0..count).map(|_| any_node(random, n)));
        }
    }
}

/// Puts another word for `--threshold`, which is given if it was not.
fn nearly_give_threshold(random: &mut Random, words: &mut Vec<Vec<u8>>, n: usize) {
    let near = one_of(random, &NEAR_THRESHOLDS).to_vec();
    match words.iter().position(|word| word == THRESHOLD) {
        Some(place) => words[place] = near,
        None => {
            let place = 1.min(words.len()) + random.below(words.len().max(1));
            words.splice(place..place, [near, any_threshold(random, n)]);
        }
    }
}

fn no_command(random: &mut Random) -> Vec<u8> {
    match random.below(4) {
        0 => middle_word(random),
        _ => one_of(random, &NO_COMMANDS).to_vec(),
    }
}

/// Now and then a long one.
fn odd_word(random: &mut Random) -> Vec<u8> {
    match random.below(100) {
        0..=14 => {
            let byte = one_of(random, b"017x- \n\xff");
            vec![byte; 5_001 + random.below(60_000)]
        }
        15..=24 => one_of(random, &NEAR_THRESHOLDS).to_vec(),
        25..=44 => middle_word(random),
        45..=59 => {
            // By one to three digits more it is no number.
            let front = one_of(random, &[1, 2, 3, 12, 123]);
            format!("{front}{}", ten_digits(random)).into_bytes()
        }
        _ => one_of(random, &ODD_WORDS).to_vec(),
    }
}

/// 15, 16 or 17 letters and digits. It may begin like a word that has a
/// meaning.
fn middle_word(random: &mut Random) -> Vec<u8> {
    const BEGINNINGS: [&[u8]; 7] = [b"", b"", b"pair", b"test", b"help", b"7", b"1234567890"];
    let bytes: &[u8] = one_of(
        random,
        &[
            b"0123456789".as_slice(),
            b"abcxyzABCXYZ".as_slice(),
            b"0123456789abcxyzABCXYZ".as_slice(),
        ],
    );
    let length = 15 + random.below(3);
    let mut word = one_of(random, &BEGINNINGS).to_vec();
    while word.len() < length {
        word.push(one_of(random, bytes));
    }
    word
}

/// A number of ten digits of which the first is 1, 2 or 3: 32 bits hold it.
fn ten_digits(random: &mut Random) -> u64 {
    1_000_000_000 + random.below(3_000_000_000) as u64
}
