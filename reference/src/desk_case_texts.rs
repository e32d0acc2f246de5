//! Texts on which the program `puxerdau` is run.

use crate::common::{blocks, disordered_file, joined_blocks, path, star, tree, Random, Sample};
use crate::comparison::{
    any_sample, damage, disordered_text, lines_of, one_of, FILE_BYTES, TEXT_BYTES,
};

/// Numbers at limits, also at those of 16 and of 32 bits.
pub const NUMBERS: [u64; 20] = [
    0, 1, 2, 127, 128, 129, 1023, 1024, 1025, 2048, 2049, 16383, 16384, 16385, 65535, 65536,
    4294967295, 4294967296, 4294967297, 9999999999,
];

/// Mostly small surveys; some are near the listing's limits, and now and
/// then one is near those of all surveys.
pub fn any_survey(random: &mut Random) -> Sample {
    match random.below(100) {
        0..=2 => large_survey(random),
        3..=9 => {
            let n = 100 + random.below(36);
            any_sample(random, n)
        }
        10..=13 => {
            let (n, links) = (65 + random.below(65), 2045 + random.below(7));
            scattered_links(random, n, links)
        }
        14..=17 => Sample::new("one node", 1),
        _ => {
            let n = 1 + random.below(40);
            any_sample(random, n)
        }
    }
}

fn large_survey(random: &mut Random) -> Sample {
    let n = 1000 + random.below(26);
    match random.below(9) {
        0 => path(1024),
        1 => path(1025),
        2 => star(n, n / 2),
        3 => tree(random, n),
        4 => blocks(1024, 33),
        5 => joined_blocks(n, 40).renumbered(random),
        6 => scattered_links(random, n, 3 * n),
        7 => scattered_links(random, 1024, 16384),
        _ => {
            let links = 16382 + random.below(4);
            scattered_links(random, 200, links)
        }
    }
}

/// So many links anywhere.
fn scattered_links(random: &mut Random, n: usize, links: usize) -> Sample {
    let mut sample = Sample::new("scattered", n);
    let mut left = links;
    while left > 0 {
        let (a, b) = (random.below(n), random.below(n));
        if a != b && !sample.linked[a][b] {
            sample.link(a, b);
            left -= 1;
        }
    }
    sample
}

/// The survey's text or file, now and then the other one than is read, as it
/// is, too long, kept by another program, or damaged.
pub fn any_text(random: &mut Random, command: &str, sample: &Sample) -> Vec<u8> {
    let is_file = (command == "import") != random.percent(4);
    let (mut text, bytes) = if is_file {
        (any_file(random, sample), &FILE_BYTES)
    } else {
        (disordered_text(random, sample), &TEXT_BYTES)
    };
    if random.percent(if is_file { 25 } else { 2 }) {
        lengthen(random, &mut text, is_file);
    }
    // These two have words of their own for counts above their limits.
    if ["import", "reports"].contains(&command) && random.percent(20) {
        change_counts(random, &mut text);
    }
    if random.percent(8) {
        let separator = if is_file { b' ' } else { b',' };
        keep_otherwise(random, &mut text, separator);
    }
    if random.percent(35) {
        for _ in 0..1 + random.below(2) {
            if random.percent(40) {
                damage(random, &mut text, bytes);
            } else {
                change_number(random, &mut text, sample.n);
            }
        }
    }
    text
}

/// With comments, and with links from one end or from both.
fn any_file(random: &mut Random, sample: &Sample) -> Vec<u8> {
    let repeated = one_of(random, &[0, 0, 20, 100]);
    let comments = one_of(random, &[0, 1, 3, 20]);
    disordered_file(random, sample, repeated, comments)
}

/// Makes a file about as long as the longest that is taken, and any other
/// text longer than that.
fn lengthen(random: &mut Random, text: &mut Vec<u8>, is_file: bool) {
    let length = match random.below(8) {
        0 => 600_000,
        1 => 524_285 + random.below(5),
        2..=4 => 524_288,
        _ => 524_287,
    };
    let added = if is_file {
        let missing = length - text.len().min(length - 2);
        comments(random, missing)
    } else if random.percent(50) {
        [vec![b'1'; length], vec![b'\n']].concat()
    } else {
        b"L,0,1\n".repeat(length / 5)
    };
    let mut lines = lines_of(text);
    lines.insert(random.below(lines.len() + 1), added);
    *text = lines.concat();
}

/// What other programs make of a text when they keep it.
fn keep_otherwise(random: &mut Random, text: &mut Vec<u8>, separator: u8) {
    let replaced = |byte: u8, by: &[u8]| -> Vec<u8> {
        let pieces: Vec<&[u8]> = text.split(|&other| other == byte).collect();
        pieces.join(by)
    };
    *text = match random.below(5) {
        0 => replaced(b'\n', b"\r\n"),
        // A byte order mark.
        1 => [b"\xef\xbb\xbf", text.as_slice()].concat(),
        // An empty line.
        2 => [text.as_slice(), b"\n"].concat(),
        3 => replaced(separator, &[separator, b' ']),
        _ => {
            let is_separator = |&place: &usize| text[place] == separator;
            let places: Vec<usize> = (0..text.len()).filter(is_separator).collect();
            let (front, behind) = text.split_at(one_of(random, &places) + 1);
            [front, b" ", behind].concat()
        }
    };
}

/// One comment or many, with so many bytes together.
fn comments(random: &mut Random, length: usize) -> Vec<u8> {
    if random.percent(50) {
        return [vec![b'c'; length - 1], vec![b'\n']].concat();
    }
    // All but the first have two bytes.
    let first: &[u8] = if length & 1 == 0 { b"c\n" } else { b"cx\n" };
    [first, &b"c\n".repeat((length - first.len()) / 2)].concat()
}

/// Gives one number of a line another value, often in the first line.
fn change_number(random: &mut Random, text: &mut Vec<u8>, n: usize) {
    let mut lines = lines_of(text);
    let place = match random.below(5) {
        0 | 1 => 0,
        _ => random.below(lines.len().max(1)),
    };
    let Some(line) = lines.get_mut(place) else {
        return;
    };
    let numbers = numbers_of(line);
    if numbers.is_empty() {
        return;
    }
    let (from, to) = one_of(random, &numbers);
    let (other_from, other_to) = one_of(random, &numbers);
    let value = match random.below(3) {
        // Often the ends of a link become equal.
        0 => line[other_from..other_to].to_vec(),
        _ => other_number(random, &line[from..to], n),
    };
    line.splice(from..to, value);
    *text = lines.concat();
}

/// Gives the count of nodes or of links a value at a limit.
fn change_counts(random: &mut Random, text: &mut Vec<u8>) {
    let mut lines = lines_of(text);
    let is_first = |line: &&mut Vec<u8>| line.starts_with(b"S,") || line.starts_with(b"p ");
    let line = lines.iter_mut().find(is_first).expect("a first line");
    let [nodes, links] = numbers_of(line)[..] else {
        return;
    };
    let ((from, to), value) = if random.percent(35) {
        (nodes, one_of(random, &[0, 128, 129, 1024, 1025]))
    } else {
        (links, one_of(random, &[2048, 2049, 16384, 16385, 16385]))
    };
    line.splice(from..to, value.to_string().into_bytes());
    *text = lines.concat();
}

/// Where a line has digits: the first of each run, and the place behind it.
fn numbers_of(line: &[u8]) -> Vec<(usize, usize)> {
    let is_digit = |place: usize| line.get(place).is_some_and(u8::is_ascii_digit);
    let begins = |&place: &usize| is_digit(place) && (place == 0 || !is_digit(place - 1));
    let end = |from: usize| (from..).find(|&place| !is_digit(place)).unwrap_or(from);
    let starts = (0..line.len()).filter(begins);
    starts.map(|from| (from, end(from))).collect()
}

fn other_number(random: &mut Random, digits: &[u8], n: usize) -> Vec<u8> {
    let old: u64 = String::from_utf8_lossy(digits).parse().unwrap_or(0);
    let value = match random.below(6) {
        0 => old.saturating_add(1),
        1 => old.saturating_sub(1),
        2 => (n + random.below(3)).saturating_sub(1) as u64,
        _ => one_of(random, &NUMBERS),
    };
    value.to_string().into_bytes()
}
