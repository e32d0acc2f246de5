//! Planners' files, which are DIMACS edge files: importing one into the two
//! lists, and exporting one.

use crate::survey::Graph;
use crate::text::{put_text, split_line, Form, LIMITS};

/// The form of a file. Links that are repeated change nothing.
pub const FORM: Form = Form {
    counts: "p edge",
    link: "e",
    separator: ' ',
    first_node: 1,
    skip: skip_comments,
    line_form: 13,
    line_count: 13,
    repeated_link: None,
};

/// Reads a file. The answer is n and the count of links kept.
pub fn import(
    text: &[u8],
    starts: &mut [u32],
    neighbours: &mut [u16],
) -> Result<(usize, usize), u8> {
    FORM.read(&LIMITS, text, starts, neighbours)
}

/// Writes the survey as a file. The answer is the file's length.
pub fn export(
    n: usize,
    starts: &[u32],
    neighbours: &[u16],
    buffer: &mut [u8],
) -> Result<usize, u8> {
    let graph = Graph::accept(n, starts, neighbours)?;
    put_text(FORM.lines_of(&graph).as_bytes(), buffer)
}

/// The text without the comments at its front. A comment that has no end
/// stays.
fn skip_comments(mut text: &[u8]) -> &[u8] {
    while text.first() == Some(&b'c') {
        let Some((_, rest)) = split_line(text) else {
            break;
        };
        text = rest;
    }
    text
}
