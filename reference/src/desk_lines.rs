//! The place at which reading a text stops. Reading says a refusal's number
//! only, so the text is judged a second time here, as a list of numbered
//! lines.

use crate::text::{read_fields, Form, Limits};
use crate::{file, listing, text};
use std::collections::BTreeSet;

/// What a command reads, and the words of the refusals 2 and 3.
pub struct Source {
    pub form: &'static Form,
    pub limits: &'static Limits,
    node_limit: &'static str,
    link_limit: &'static str,
}

/// A survey's text.
pub const SURVEY: Source = Source {
    form: &text::FORM,
    limits: &text::LIMITS,
    node_limit: "a survey has 1 to 1024 nodes",
    link_limit: "a survey has at most 16384 links",
};

/// A survey's text that is to be listed.
pub const LISTED: Source = Source {
    form: &text::FORM,
    limits: &listing::LIMITS,
    node_limit: "reports takes 1 to 128 nodes",
    link_limit: "reports takes at most 2048 links",
};

/// A planners' file. Its lines are counted, not the links that are kept.
pub const FILE: Source = Source {
    form: &file::FORM,
    limits: &text::LIMITS,
    node_limit: SURVEY.node_limit,
    link_limit: "a file has at most 16384 lines e a b",
};

/// Where reading stops, and why.
pub struct Stop {
    pub line: usize,
    pub refusal: u8,
    /// The count of nodes; 0 where it is not accepted.
    nodes: u64,
}

/// A line with its line feed, if it has one, and its number in the text.
type NumberedLine<'a> = (usize, &'a [u8]);

/// Where reading a text stops; nothing if it is not refused.
pub fn find_stop(source: &Source, text: &[u8]) -> Option<Stop> {
    let form = source.form;
    let stop = |line: usize, refusal: u8, nodes: u64| {
        Some(Stop {
            line,
            refusal,
            nodes,
        })
    };
    let lines = numbered_lines(form, text);
    let (first, behind) = lines.split_first().expect("a text has a last line");
    let (n, m) = match judge_counts(form, source.limits, first.1) {
        Ok(counts) => counts,
        Err(refusal) => return stop(first.0, refusal, 0),
    };
    let mut given = BTreeSet::new();
    for &(number, line) in behind.iter().take(m) {
        if let Err(refusal) = judge_link(form, n, line, &mut given) {
            return stop(number, refusal, n);
        }
    }
    // Behind the last link there is the end of the text and nothing else.
    match behind[m] {
        (_, b"") => None,
        (number, _) => stop(number, form.line_count, n),
    }
}

/// The lines of a text but for its comments. The last one has no line feed:
/// it is empty where the text ends at a line's end.
fn numbered_lines<'a>(form: &Form, text: &'a [u8]) -> Vec<NumberedLine<'a>> {
    let mut lines: Vec<NumberedLine> = (1..)
        .zip(text.split_inclusive(|&byte| byte == b'\n'))
        .collect();
    if text.is_empty() || text.ends_with(b"\n") {
        lines.push((lines.len() + 1, b""));
    }
    lines.retain(|(_, line)| line.is_empty() || !(form.skip)(line).is_empty());
    lines
}

/// Judges form, 2 and 3. The answer is n and m.
fn judge_counts(form: &Form, limits: &Limits, line: &[u8]) -> Result<(u64, usize), u8> {
    let (n, m) = two_numbers(form, form.counts, line)?;
    if n < 1 || n > limits.nodes as u64 {
        return Err(2);
    }
    if m > limits.links as u64 {
        return Err(3);
    }
    Ok((n, m as usize))
}

/// Judges the end of the text, form, 4, 5 and 6, and adds the link to those
/// given.
fn judge_link(
    form: &Form,
    n: u64,
    line: &[u8],
    given: &mut BTreeSet<(usize, usize)>,
) -> Result<(), u8> {
    if line.is_empty() {
        return Err(form.line_count);
    }
    let ends = two_numbers(form, form.link, line)?;
    let (a, b) = form.check_ends(ends, n as usize)?;
    let is_new = given.insert((a.min(b), a.max(b)));
    match form.repeated_link {
        Some(refusal) if !is_new => Err(refusal),
        _ => Ok(()),
    }
}

fn two_numbers(form: &Form, word: &str, line: &[u8]) -> Result<(u64, u64), u8> {
    line.strip_suffix(b"\n")
        .and_then(|fields| read_fields(fields, word, form.separator))
        .ok_or(form.line_form)
}

impl Stop {
    /// The line that is printed.
    pub fn show(&self, source: &Source) -> String {
        let Stop { line, refusal, .. } = self;
        format!("refused {refusal} at line {line}: {}", self.words(source))
    }

    fn words(&self, source: &Source) -> String {
        let words = match self.refusal {
            1 if self.line == 1 => {
                "the first line of a survey is S,n,m and a line feed; no spaces, carriage returns or leading zeros"
            }
            1 => "a link line is L,a,b and a line feed; no spaces, carriage returns or leading zeros",
            2 => source.node_limit,
            3 => source.link_limit,
            4 => return name_nodes(source.form.first_node, self.nodes),
            5 => "a link joins two different nodes",
            6 => "the link was given before, either way round",
            7 => "as many links must follow line 1 as it says, and nothing else",
            13 => {
                "a file is p edge n m, then m lines e a b, each with a line feed; \
                 no carriage returns or leading zeros; comments begin with c"
            }
            other => unreachable!("refusal {other} is none of a text"),
        };
        String::from(words)
    }
}

/// The n nodes from the first one on.
pub fn name_nodes(first: u64, n: u64) -> String {
    format!("the nodes are {first} to {}", first + n - 1)
}
