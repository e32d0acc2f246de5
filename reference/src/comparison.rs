//! What the comparisons with programs have in common: running a program on a
//! text, surveys of many shapes, and damaged texts.

use crate::common::{disorder, samples_of, text_of, Random, Sample};
use std::ffi::OsStr;
use std::fs::File;
use std::io::Write;
use std::os::unix::ffi::OsStrExt;
use std::process::{Child, Command, Stdio};

/// What the program prints for these words and this text on standard input.
pub fn output_of(program: &str, words: &[Vec<u8>], text: &[u8]) -> Result<Vec<u8>, String> {
    let mut child = begin(program, words, Stdio::piped())?;
    // The program may stop reading before the end of a long text.
    let _ = child.stdin.take().map(|mut input| input.write_all(text));
    end(program, child)
}

/// What the program prints for these words where standard input is a folder,
/// which cannot be read.
pub fn output_without_text(program: &str, words: &[Vec<u8>]) -> Result<Vec<u8>, String> {
    let folder = File::open("/").map_err(|error| error.to_string())?;
    end(program, begin(program, words, Stdio::from(folder))?)
}

fn begin(program: &str, words: &[Vec<u8>], input: Stdio) -> Result<Child, String> {
    Command::new(program)
        .args(words.iter().map(|word| OsStr::from_bytes(word)))
        .stdin(input)
        .stdout(Stdio::piped())
        .stderr(Stdio::piped())
        .spawn()
        .map_err(|error| format!("{program}: {error}"))
}

/// Nothing may be printed elsewhere than on standard output.
fn end(program: &str, child: Child) -> Result<Vec<u8>, String> {
    let output = child
        .wait_with_output()
        .map_err(|error| format!("{program}: {error}"))?;
    if !output.status.success() {
        return Err(format!("{program}: {}", output.status));
    }
    if !output.stderr.is_empty() {
        let said = String::from_utf8_lossy(&output.stderr);
        return Err(format!("{program} on standard error: {said}"));
    }
    Ok(output.stdout)
}

pub fn any_sample(random: &mut Random, n: usize) -> Sample {
    let mut samples = samples_of(random, n);
    let index = random.below(samples.len());
    samples.swap_remove(index)
}

/// A survey's text with its lines in any order and their ends either way
/// round.
pub fn disordered_text(random: &mut Random, sample: &Sample) -> Vec<u8> {
    let mut links = sample.links();
    disorder(random, &mut links);
    text_of(sample.n, &links).into_bytes()
}

/// The bytes that damage puts into a text.
pub struct Bytes {
    /// One of these somewhere.
    pub inserted: &'static [u8],
    /// Many of these at the end.
    pub mixed: &'static [u8],
    /// One of these, many times, at the end.
    pub repeated: &'static [u8],
}

/// Bytes for a survey's text.
pub const TEXT_BYTES: Bytes = Bytes {
    inserted: b"0123456789,\nSL",
    mixed: b"L,0123456789\n",
    repeated: b"\nL,9",
};

/// Bytes for a planners' file.
pub const FILE_BYTES: Bytes = Bytes {
    inserted: b"0123456789 \nepc",
    mixed: b"ce 0123456789\n",
    repeated: b"\ne c9",
};

pub fn damage(random: &mut Random, text: &mut Vec<u8>, bytes: &Bytes) {
    let at = random.below(text.len() + 1);
    let any = (random.next() % 256) as u8;
    match random.below(10) {
        0 => text.truncate(at),
        1 => text.insert(at, any),
        2 => text.insert(at, one_of(random, bytes.inserted)),
        3 if at < text.len() => text[at] ^= 1 << random.below(8),
        4 if at < text.len() => {
            text.remove(at);
        }
        5 => repeat_line(random, text),
        6 => swap_lines(random, text),
        7 => {
            text.splice(at..at, random.next().to_string().bytes());
        }
        8 => text.extend((0..100_000).map(|_| one_of(random, bytes.mixed))),
        _ => {
            let byte = one_of(random, bytes.repeated);
            text.extend(std::iter::repeat_n(byte, 1 + random.below(60_000)));
        }
    }
}

/// One of a few values, each as likely as the others.
pub fn one_of<T: Copy>(random: &mut Random, values: &[T]) -> T {
    values[random.below(values.len())]
}

pub fn lines_of(text: &[u8]) -> Vec<Vec<u8>> {
    text.split_inclusive(|&byte| byte == b'\n')
        .map(<[u8]>::to_vec)
        .collect()
}

fn repeat_line(random: &mut Random, text: &mut Vec<u8>) {
    let mut lines = lines_of(text);
    if !lines.is_empty() {
        let line = lines[random.below(lines.len())].clone();
        lines.insert(random.below(lines.len() + 1), line);
    }
    *text = lines.concat();
}

fn swap_lines(random: &mut Random, text: &mut Vec<u8>) {
    let mut lines = lines_of(text);
    if !lines.is_empty() {
        let (a, b) = (random.below(lines.len()), random.below(lines.len()));
        lines.swap(a, b);
    }
    *text = lines.concat();
}
