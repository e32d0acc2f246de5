//! Planners' files: valid and damaged, the file of a survey text, and what importing can meet.

use crate::texts::{lines_of, Form};
use comparison::common::{self, Random, Sample};
use std::cmp::Ordering;

pub const FILE: Form = Form {
    counts: "p edge",
    link: "e",
    separator: b' ',
    bytes: b"cpe 0123456789\n\r\t-+.x\0\xff",
};

/// What importing can meet: `kind` of a file.
pub const KINDS: [&str; 12] = [
    "no link repeated, no comment",
    "no link repeated, comments",
    "a link repeated, no comment",
    "a link repeated, comments",
    "the most lines, repeated links among them",
    "3, one line more than the most",
    "8 by the file's m though the links kept would fit",
    "13, a comment without its end",
    "13, the counts not in their form",
    "13, fewer lines than links",
    "13, more lines than links",
    "13, as many lines as links",
];

/// The most lines with links, and the longest lists for them.
const MOST_LINES: usize = 16384;
const LONGEST: (usize, usize) = (1025, 2 * MOST_LINES);

/// The file's lines in any order, the ends of links either way round, some links given more than once, with comments.
pub fn valid(random: &mut Random, sample: &Sample) -> Vec<u8> {
    let comments = match random.below(10) {
        0..=4 => 0,
        5..=8 => 1 + random.below(6),
        _ => random.below(200),
    };
    let file = if random.percent(4) {
        let links = most_links(random, sample);
        common::disordered_file_of(random, sample.n, links, comments)
    } else {
        let repeated = [0, 0, 20, 100][random.below(4)];
        common::disordered_file(random, sample, repeated, comments)
    };
    if !random.percent(2) {
        return file;
    }
    let mut lines = lines_of(&file);
    lines.insert(random.below(lines.len() + 1), long_comment(random));
    lines.concat()
}

/// The sample's links again and again, as many as a file may have lines for them or one more; none where the sample has none.
fn most_links(random: &mut Random, sample: &Sample) -> Vec<(usize, usize)> {
    let count = MOST_LINES + random.below(2);
    sample.links().into_iter().cycle().take(count).collect()
}

/// A comment of any bytes but line feeds.
fn long_comment(random: &mut Random) -> Vec<u8> {
    let length = random.below(1 << 17);
    let bytes = (0..length).map(|_| random.next() as u8);
    let bytes = bytes.map(|byte| if byte == b'\n' { b'c' } else { byte });
    [vec![b'c'], bytes.collect(), vec![b'\n']].concat()
}

/// A link line of nodes at the ends of the range or outside it, or of equal ones.
fn odd_link(random: &mut Random, n: usize) -> Vec<u8> {
    let ends = [0, 1, n, n + 1, n + 65536, n + (1 << 32)];
    let [a, b] = [(); 2].map(|()| ends[random.below(ends.len())]);
    FILE.line(FILE.link, a, b).into_bytes()
}

/// The file of n nodes with one fault that a reader of such files may overlook; some leave it a file.
pub fn damaged(random: &mut Random, file: &[u8], n: usize) -> Vec<u8> {
    let mut lines = lines_of(file);
    let counts = lines.iter().position(|line| line.starts_with(b"p"));
    let counts = counts.expect("a line with counts");
    let i = if random.percent(30) {
        counts
    } else {
        random.below(lines.len())
    };
    let end = lines[i].len() - 1;
    let place = lines[i].iter().position(|&c| c == b' ');
    match random.below(13) {
        0 => lines[i].insert(0, b'c'),
        1 => lines[i].insert(0, b' '),
        2 => lines[i].insert(end, b' '),
        3 => lines[i].insert(end, b'\r'),
        4 => {
            lines[i].pop();
        }
        5 => lines[counts] = b"p col 9 9\n".to_vec(),
        6 => lines.insert(i, lines[counts].clone()),
        7 => lines.swap(i, counts),
        8 => lines.push(b"c no end".to_vec()),
        9 => lines.insert(i, b"c\n".to_vec()),
        10 => lines[i] = odd_link(random, n),
        11 => place.into_iter().for_each(|k| lines[i][k] = b'\t'),
        _ => place.into_iter().for_each(|k| lines[i].insert(k, b' ')),
    }
    lines.concat()
}

/// The file with the counts and the links of a survey text that was accepted, line by line.
pub fn of_text(text: &[u8]) -> Vec<u8> {
    let text = String::from_utf8_lossy(text);
    let lines = text.lines().map(|line| {
        let mut numbers = line[2..].split(',').map(|x| x.parse().expect("a number"));
        let (x, y): (usize, usize) = (numbers.next().unwrap(), numbers.next().unwrap());
        if line.starts_with('S') {
            FILE.line(FILE.counts, x, y)
        } else {
            FILE.line(FILE.link, x + 1, y + 1)
        }
    });
    lines.collect::<String>().into_bytes()
}

/// How many of its lines begin as a link does.
pub fn link_lines(file: &[u8]) -> usize {
    let lines = file.split(|&c| c == b'\n');
    lines.filter(|line| line.starts_with(b"e")).count()
}

/// The kind of a file that was imported into lists of these lengths, if it has one. Refused 13, it ends inside a comment behind what is a
/// file, or has another count of lines than its counts say, or a line out of form; which of the last two came first does not show.
pub fn kind(
    file: &[u8],
    lengths: (usize, usize),
    answer: Result<(usize, usize), u8>,
) -> Option<usize> {
    let lines = file.split_inclusive(|&c| c == b'\n');
    let is_comment = |line: &&[u8]| line.starts_with(b"c") && line.ends_with(b"\n");
    let (comments, others): (Vec<&[u8]>, Vec<&[u8]>) = lines.partition(is_comment);
    let said = others.first().and_then(|line| links_said(line));
    let found = others.len().saturating_sub(1);
    match answer {
        Ok((_, links)) if found == MOST_LINES && links < found => Some(4),
        Ok((_, links)) => {
            let repeated = usize::from(links < found);
            Some(2 * repeated + usize::from(!comments.is_empty()))
        }
        Err(3) => (found == MOST_LINES + 1 && said == Some(found as u64)).then_some(5),
        Err(8) => {
            let (n, links) = accepted(file)?;
            (lengths.0 > n && lengths.1 >= 2 * links).then_some(6)
        }
        Err(13) => Some(match said {
            _ if ends_inside_comment(file) => 7,
            None => 8,
            Some(said) => match (found as u64).cmp(&said) {
                Ordering::Less => 9,
                Ordering::Greater => 10,
                Ordering::Equal => 11,
            },
        }),
        Err(_) => None,
    }
}

/// The nodes and the links of a file that the longest lists are enough for.
fn accepted(file: &[u8]) -> Option<(usize, usize)> {
    let (mut starts, mut neighbours) = (vec![0; LONGEST.0], vec![0; LONGEST.1]);
    reference::import(file, &mut starts, &mut neighbours).ok()
}

/// Whether the file's last line is a comment without its end, and the lines before it are a file.
fn ends_inside_comment(file: &[u8]) -> bool {
    let end = file.iter().rposition(|&c| c == b'\n').map_or(0, |k| k + 1);
    let (before, last) = file.split_at(end);
    last.starts_with(b"c") && accepted(before).is_some()
}

/// The count of links in a line with counts.
fn links_said(line: &[u8]) -> Option<u64> {
    let line = std::str::from_utf8(line).ok()?.strip_suffix('\n')?;
    let (n, m) = line.strip_prefix("p edge ")?.split_once(' ')?;
    common::number(n).and(common::number(m))
}
