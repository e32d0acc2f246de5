//! Reading a survey text into the two lists, and writing it back; and what a
//! planners' file has in common with it.

use crate::survey::{Graph, MAX_LINKS, MAX_NODES};

/// The most nodes and links a reading takes.
pub struct Limits {
    pub nodes: usize,
    pub links: usize,
}

/// The limits of a survey.
pub const LIMITS: Limits = Limits {
    nodes: MAX_NODES,
    links: MAX_LINKS,
};

/// How lines give a survey's counts and its links, and what is refused.
pub struct Form {
    /// What a line with the counts of nodes and links begins with.
    pub counts: &'static str,
    /// What a line with the two ends of a link begins with.
    pub link: &'static str,
    /// What parts the fields of a line.
    pub separator: char,
    /// The number of the first node.
    pub first_node: u64,
    /// A text without what may stand before any line.
    pub skip: fn(&[u8]) -> &[u8],
    /// The refusal of a line that is not in its form.
    pub line_form: u8,
    /// The refusal of fewer or more lines than there are links.
    pub line_count: u8,
    /// The refusal of a link that was given before, if it is refused.
    pub repeated_link: Option<u8>,
}

/// The form of a survey text.
pub const FORM: Form = Form {
    counts: "S",
    link: "L",
    separator: ',',
    first_node: 0,
    skip: |text| text,
    line_form: 1,
    line_count: 7,
    repeated_link: Some(6),
};

/// Reads a survey text. The answer is n and m.
pub fn read(text: &[u8], starts: &mut [u32], neighbours: &mut [u16]) -> Result<(usize, usize), u8> {
    read_within(&LIMITS, text, starts, neighbours)
}

/// Reads a survey text under the given limits.
pub fn read_within(
    limits: &Limits,
    text: &[u8],
    starts: &mut [u32],
    neighbours: &mut [u16],
) -> Result<(usize, usize), u8> {
    FORM.read(limits, text, starts, neighbours)
}

/// Writes the survey as text. The answer is the text's length.
pub fn write(n: usize, starts: &[u32], neighbours: &[u16], buffer: &mut [u8]) -> Result<usize, u8> {
    let graph = Graph::accept(n, starts, neighbours)?;
    put_text(FORM.lines_of(&graph).as_bytes(), buffer)
}

/// Puts a text into a buffer, which stays as it is where it is too short.
/// The answer is the text's length.
pub fn put_text(text: &[u8], buffer: &mut [u8]) -> Result<usize, u8> {
    if buffer.len() < text.len() {
        return Err(12);
    }
    buffer[..text.len()].copy_from_slice(text);
    Ok(text.len())
}

/// The first line without its line feed, and what follows it; nothing if
/// the text has no line feed.
pub fn split_line(text: &[u8]) -> Option<(&[u8], &[u8])> {
    let end = text.iter().position(|&byte| byte == b'\n')?;
    Some((&text[..end], &text[end + 1..]))
}

impl Form {
    /// Reads a text of this form under the given limits. The answer is n and
    /// the count of links.
    pub fn read(
        &self,
        limits: &Limits,
        text: &[u8],
        starts: &mut [u32],
        neighbours: &mut [u16],
    ) -> Result<(usize, usize), u8> {
        // Only a success writes anything else into the lists.
        starts.fill(0);
        neighbours.fill(0);
        let (counts, rest) = self.read_line(self.counts, (self.skip)(text))?;
        let (n, m) = check_counts(counts, limits, starts, neighbours)?;
        let links = self.read_links(rest, n, m)?;
        Ok((n, links.fill_lists(starts, neighbours)))
    }

    /// The m link lines, and nothing behind them.
    fn read_links(&self, text: &[u8], n: usize, m: usize) -> Result<Links, u8> {
        let mut rest = (self.skip)(text);
        let mut links = Links::new(n);
        for _ in 0..m {
            if rest.is_empty() {
                return Err(self.line_count);
            }
            let (ends, after) = self.read_line(self.link, rest)?;
            let (a, b) = self.check_ends(ends, n)?;
            match self.repeated_link {
                Some(refusal) if links.contain(a, b) => return Err(refusal),
                _ => links.add(a, b),
            }
            rest = (self.skip)(after);
        }
        if rest.is_empty() {
            Ok(links)
        } else {
            Err(self.line_count)
        }
    }

    /// The two numbers of the first line, which begins with the given word,
    /// and what follows the line.
    fn read_line<'a>(&self, word: &str, text: &'a [u8]) -> Result<((u64, u64), &'a [u8]), u8> {
        let (line, rest) = split_line(text).ok_or(self.line_form)?;
        let numbers = read_fields(line, word, self.separator).ok_or(self.line_form)?;
        Ok((numbers, rest))
    }

    /// Judges 4, then 5. The answer is the two ends, numbered from 0.
    pub fn check_ends(&self, (a, b): (u64, u64), n: usize) -> Result<(usize, usize), u8> {
        let nodes = self.first_node..self.first_node + n as u64;
        if !nodes.contains(&a) || !nodes.contains(&b) {
            return Err(4);
        }
        if a == b {
            return Err(5);
        }
        Ok(((a - nodes.start) as usize, (b - nodes.start) as usize))
    }

    /// A line with the counts, and a line for each link a < b, ascending.
    pub fn lines_of(&self, graph: &Graph) -> String {
        let n = graph.node_count();
        let mut lines = self.line(self.counts, n as u64, graph.link_count() as u64);
        for a in 0..n {
            for &b in graph.neighbours(a) {
                if a < b as usize {
                    let ends = [a as u64, u64::from(b)].map(|v| self.first_node + v);
                    lines += &self.line(self.link, ends[0], ends[1]);
                }
            }
        }
        lines
    }

    fn line(&self, word: &str, x: u64, y: u64) -> String {
        let separator = self.separator;
        format!("{word}{separator}{x}{separator}{y}\n")
    }
}

/// The two numbers of a line that is a word and two numbers, with one
/// separator before each number.
pub fn read_fields(line: &[u8], word: &str, separator: char) -> Option<(u64, u64)> {
    let behind = line.strip_prefix(word.as_bytes())?;
    let fields: Vec<&[u8]> = behind
        .split(|&byte| char::from(byte) == separator)
        .collect();
    // Nothing stands between the word and the first separator.
    let [b"", first, second] = fields[..] else {
        return None;
    };
    Some((read_number(first)?, read_number(second)?))
}

/// One to ten digits without a leading zero, 0 itself excepted.
pub fn read_number(digits: &[u8]) -> Option<u64> {
    let length_fits = (1..=10).contains(&digits.len());
    if !length_fits || !digits.iter().all(u8::is_ascii_digit) {
        return None;
    }
    if digits[0] == b'0' && digits.len() > 1 {
        return None;
    }
    // Ten digits need more than 32 bits.
    let value = digits
        .iter()
        .fold(0, |value, digit| value * 10 + u64::from(digit - b'0'));
    Some(value)
}

/// Judges 2 and 3 by the limits, then 8. The answer is n and m.
fn check_counts(
    (n, m): (u64, u64),
    limits: &Limits,
    starts: &[u32],
    neighbours: &[u16],
) -> Result<(usize, usize), u8> {
    if n < 1 || n > limits.nodes as u64 {
        return Err(2);
    }
    if m > limits.links as u64 {
        return Err(3);
    }
    let (n, m) = (n as usize, m as usize);
    if starts.len() < n + 1 || neighbours.len() < 2 * m {
        return Err(8);
    }
    Ok((n, m))
}

/// Links as an n by n matrix of linked pairs.
struct Links {
    n: usize,
    linked: Vec<bool>,
}

impl Links {
    fn new(n: usize) -> Self {
        Links {
            n,
            linked: vec![false; n * n],
        }
    }

    fn contain(&self, a: usize, b: usize) -> bool {
        self.linked[a * self.n + b]
    }

    /// Adds a link; one that is there already stays.
    fn add(&mut self, a: usize, b: usize) {
        self.linked[a * self.n + b] = true;
        self.linked[b * self.n + a] = true;
    }

    /// Fills both lists; going through the matrix row by row gives every
    /// node's neighbours in ascending order. The answer is the count of
    /// links.
    fn fill_lists(&self, starts: &mut [u32], neighbours: &mut [u16]) -> usize {
        let mut used = 0;
        starts[0] = 0;
        for a in 0..self.n {
            for b in 0..self.n {
                if self.contain(a, b) {
                    neighbours[used] = b as u16;
                    used += 1;
                }
            }
            starts[a + 1] = used as u32;
        }
        used / 2
    }
}
