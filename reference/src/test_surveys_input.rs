//! Makes the script that the Rattle program `test_surveys` is run on: the
//! rules' examples, texts and files damaged by hand and by chance, and lists
//! that are no survey's.

use crate::common::{disordered_file, small_samples, Random, Sample, COURSE, COURSE_FILE};

const COURSE_TURNED: &str = "S,6,6\nL,2,1\nL,5,4\nL,3,5\nL,5,0\nL,2,5\nL,5,1\n";

/// Texts for reading, each into long lists. The first five are the
/// rules' examples: the course survey, and refusals 2 and 3.
const TEXTS: &[&str] = &[
    COURSE,
    COURSE_TURNED,
    "S,1025,0\n",
    "S,2,16385\n",
    "S,2,0\n",
    // The first line's form.
    "",
    "\n",
    "S",
    "S,",
    "S,1",
    "S,1,",
    "S,1,0",
    "S,1,0\r\n",
    "s,1,0\n",
    "L,1,0\n",
    " S,1,0\n",
    "S,1,0 \n",
    "S, 1,0\n",
    "S,+1,0\n",
    "S,-1,0\n",
    "S,,0\n",
    "S,1,,0\n",
    "S;1;0\n",
    "S,1,0,\n",
    "S,1,0,0\n",
    "S,01,0\n",
    "S,1,00\n",
    "S,00,0\n",
    "S,1,0x\n",
    "S,10000000000,0\n",
    "S,1,10000000000\n",
    "S,00000000001,0\n",
    // The counts.
    "S,1,0\n",
    "S,0,0\n",
    "S,0,99999\n",
    "S,1024,0\n",
    "S,1024,16384\n",
    "S,9999999999,0\n",
    "S,4294967297,0\n",
    "S,1,9999999999\n",
    "S,1,4294967296\n",
    "S,1025,16385\n",
    "S,1025,16385\nx",
    "S,2,16385\nx",
    // The count of lines.
    "S,1,0\n\n",
    "S,1,0\nx",
    "S,1,0\nL,0,0\n",
    "S,2,1\n",
    "S,2,1\n\n",
    "S,2,1\nL,0,1\n",
    "S,2,1\nL,0,1\n\n",
    "S,2,1\nL,0,1\nx",
    "S,2,1\nL,0,1\nL,0,1\n",
    "S,3,2\nL,0,1\n",
    "S,3,1\nL,0,1\nL,1,2\n",
    // A link line's form.
    "S,2,1\nL",
    "S,2,1\nL,0",
    "S,2,1\nL,0,1",
    "S,2,1\nL,0,1\r\n",
    "S,2,1\nM,0,1\n",
    "S,2,1\nS,0,1\n",
    "S,2,1\nL,0,01\n",
    "S,2,1\nL,00,1\n",
    "S,2,1\nL,0,1,\n",
    "S,2,1\nL,0 1\n",
    "S,2,1\nL,0,10000000000\n",
    // The order of 4, 5 and 6, and of lines.
    "S,2,1\nL,0,2\n",
    "S,2,1\nL,2,0\n",
    "S,2,1\nL,2,2\n",
    "S,2,1\nL,9999999999,9999999999\n",
    "S,2,1\nL,4294967296,1\n",
    "S,2,1\nL,0,0\n",
    "S,3,2\nL,0,1\nL,0,1\n",
    "S,3,2\nL,0,1\nL,1,0\n",
    "S,3,2\nL,2,1\nL,1,2\n",
    "S,3,2\nL,0,1\nL,1,0",
    "S,3,3\nL,0,1\nL,1,0\nx",
    "S,3,3\nL,0,3\nx\n",
    "S,3,3\nL,1,1\nL,0,3\n",
    "S,3,2\nL,0,1\nL,1,2\n",
    "S,3,3\nL,2,1\nL,1,0\nL,0,2\n",
];

/// Files for importing, each into long lists.
const FILES: &[&str] = &[
    COURSE_FILE,
    "p edge 2 1\ne 1 2\n",
    "p edge 2 1\ne 2 1\n",
    "p edge 1 0\n",
    "p edge 1024 0\n",
    "p edge 1024 1\ne 1024 1\n",
    // Comments: before the counts, between links, behind the last one.
    "c\np edge 1 0\n",
    "cx\nc p edge 2 0\ncc\np edge 1 0\n",
    "c\r\nc\tx\nc \0\x7f\np edge 1 0\n",
    "p edge 1 0\nc\n",
    "p edge 1 0\nc\nc e 1 1\ncp\n",
    "c\np edge 2 1\nc\ne 1 2\nc\n",
    "p edge 3 2\nce 9 9\ne 1 2\nc\nc\ne 2 3\nc p edge 1 0\n",
    // Repeated links, either way round.
    "p edge 2 2\ne 1 2\ne 1 2\n",
    "p edge 2 2\ne 1 2\ne 2 1\n",
    "p edge 2 2\ne 2 1\ne 1 2\n",
    "p edge 3 5\ne 1 2\ne 2 3\nc\ne 1 2\ne 3 2\ne 2 1\n",
    "p edge 3 6\ne 3 1\ne 3 2\ne 1 3\ne 1 2\ne 2 1\ne 2 3\n",
    // No line with counts, or not in its form.
    "",
    "\n",
    "c",
    "c\n",
    "c\nc",
    "c x",
    "c\n\np edge 1 0\n",
    "\np edge 1 0\n",
    " c\np edge 1 0\n",
    "C\np edge 1 0\n",
    "x\np edge 1 0\n",
    "p",
    "p edge",
    "p edge 1",
    "p edge 1 ",
    "p edge 1 0",
    "p edge 1 0\r\n",
    "p edge 1 0 \n",
    "p edge 1 0 0\n",
    "p edge 1  0\n",
    "p edge  1 0\n",
    "p  edge 1 0\n",
    " p edge 1 0\n",
    "p\tedge 1 0\n",
    "p edge\t1 0\n",
    "p edge 1\t0\n",
    "p col 1 0\n",
    "p edges 1 0\n",
    "p Edge 1 0\n",
    "P edge 1 0\n",
    "p 1 0\n",
    "p edge,1,0\n",
    "pedge 1 0\n",
    "p edge1 0\n",
    "S,1,0\n",
    "p edge 01 0\n",
    "p edge 1 00\n",
    "p edge +1 0\n",
    "p edge -1 0\n",
    "p edge 1 0x\n",
    "p edge 10000000000 0\n",
    "p edge 1 10000000000\n",
    "p edge 00000000001 0\n",
    "e 1 2\np edge 2 1\n",
    "c\ne 1 2\np edge 2 1\ne 1 2\n",
    "n 1 5\np edge 1 0\n",
    // The counts.
    "p edge 0 0\n",
    "c\np edge 0 99999\n",
    "p edge 1025 0\n",
    "p edge 9999999999 0\n",
    "p edge 4294967297 0\n",
    "p edge 1 9999999999\n",
    "p edge 1 4294967296\n",
    "p edge 2 16385\n",
    "p edge 1025 16385\n",
    "p edge 1025 16385\nx",
    "p edge 2 16385\nc",
    "p edge 1024 16384\n",
    // The count of lines.
    "p edge 1 0\n\n",
    "p edge 1 0\nx",
    "p edge 1 0\ne 1 1\n",
    "p edge 1 0\ne 0 0\n",
    "p edge 2 0\ne 1 2\n",
    "p edge 1 0\np edge 1 0\n",
    "p edge 2 1\n",
    "p edge 2 1\nc\n",
    "p edge 2 1\nc",
    "p edge 2 1\n\n",
    "p edge 2 1\ne 1 2\n\n",
    "p edge 2 1\ne 1 2\nx",
    "p edge 2 1\ne 1 2\nc",
    "p edge 2 1\ne 1 2\nc\n\n",
    "p edge 2 1\ne 1 2\ne 1 2\n",
    "p edge 2 1\ne 1 2\nc\ne 2 1\n",
    "p edge 2 1\ne 1 2\ne 9 9\n",
    "p edge 2 1\ne 1 2\ne 1 1\n",
    "p edge 2 1\ne 1 2\np edge 2 1\n",
    "p edge 3 2\ne 1 2\n",
    "p edge 3 2\ne 1 2\nc\n",
    "p edge 3 2\ne 1 2\nc e 2 3",
    "p edge 3 1\ne 1 2\ne 2 3\n",
    // A link line's form.
    "p edge 2 1\ne",
    "p edge 2 1\ne 1",
    "p edge 2 1\ne 1 2",
    "p edge 2 1\ne 1 2\r\n",
    "p edge 2 1\ne 1 2 \n",
    "p edge 2 1\ne 1  2\n",
    "p edge 2 1\ne  1 2\n",
    "p edge 2 1\n e 1 2\n",
    "p edge 2 1\ne\t1 2\n",
    "p edge 2 1\ne 1\t2\n",
    "p edge 2 1\ne 1 2 3\n",
    "p edge 2 1\nE 1 2\n",
    "p edge 2 1\na 1 2\n",
    "p edge 2 1\ne,1,2\n",
    "p edge 2 1\nL,0,1\n",
    "p edge 2 1\ne1 2\n",
    "p edge 2 1\nedge 1 2\n",
    "p edge 2 1\ne 01 2\n",
    "p edge 2 1\ne 00 2\n",
    "p edge 2 1\ne 1 10000000000\n",
    "p edge 2 1\np edge 2 1\ne 1 2\n",
    "p edge 2 1\nn 1 5\ne 1 2\n",
    "p edge 3 2\ne 1 2\n\ne 2 3\n",
    "p edge 3 2\ne 1 2\np edge 3 2\ne 2 3\n",
    // The order of 4, 5 and 13, and of lines.
    "p edge 2 1\ne 0 1\n",
    "p edge 2 1\ne 1 0\n",
    "p edge 2 1\ne 0 0\n",
    "p edge 2 1\ne 1 3\n",
    "p edge 2 1\ne 3 1\n",
    "p edge 2 1\ne 3 3\n",
    "p edge 2 1\ne 1 1\n",
    "p edge 2 1\ne 2 2\n",
    "p edge 1 1\ne 1 1\n",
    "p edge 2 1\ne 9999999999 9999999999\n",
    "p edge 2 1\ne 4294967297 2\n",
    "p edge 2 1\ne 1 4294967298\n",
    "p edge 2 1\ne 0 0",
    "p edge 2 1\ne 1 1",
    "p edge 2 1\nc\ne 0 2\nc",
    "p edge 2 1\nc\ne 2 2\nx\n",
    "p edge 3 3\ne 1 4\nx\n",
    "p edge 3 3\ne 2 2\ne 1 4\n",
    "p edge 3 3\ne 1 2\nx\ne 0 0\n",
    "p edge 3 3\ne 2 2\n",
    "p edge 3 1\ne 3 3\ne 1 2\n",
    "p edge 3 1\ne 1 0\ne 1 2\n",
];

/// The whole script.
pub fn make() -> Vec<u8> {
    let mut script = Vec::new();
    for text in TEXTS {
        read_into(&mut script, text.as_bytes(), 1100, 33000);
    }
    // Written back, the course survey's links stand in their order.
    for (text, n, m) in [(COURSE, 6, 6), (COURSE_TURNED, 6, 6), ("S,2,0\n", 2, 0)] {
        read_into(&mut script, text.as_bytes(), 1100, 33000);
        written(&mut script, n, n + 1, 2 * m);
    }
    list_lengths(&mut script);
    let mut random = Random::new(3);
    let samples = chosen_samples(&mut random);
    for sample in &samples {
        damaged_texts(&mut script, sample, &mut random);
        damaged_lists(&mut script, sample, &mut random);
    }
    for file in FILES {
        import_into(&mut script, file.as_bytes(), 1100, 33000);
    }
    // The lists are the course survey's, as read from its text.
    import_into(&mut script, COURSE_FILE.as_bytes(), 1100, 33000);
    written(&mut script, 6, 7, 12);
    file_lengths(&mut script);
    for sample in &samples[..18] {
        damaged_files(&mut script, sample, &mut random);
    }
    script
}

/// Imports files into lists around the lengths that they need, which go by
/// the file's count of links.
fn file_lengths(script: &mut Vec<u8>) {
    for (file, n, m) in [
        (COURSE_FILE, 6, 12),
        ("p edge 1 0\n", 1, 0),
        ("c\np edge 2 1\ne 2 1\nc\n", 2, 1),
        ("p edge 2 2\ne 1 2\ne 2 1\n", 2, 2),
        ("p edge 2 1\ne 0 0\n", 2, 1),
        ("p edge 2 1\nx", 2, 1),
        ("p edge 2 1\n", 2, 1),
        ("e 1 2\n", 2, 1),
        ("p edge 1025 0\n", 1025, 0),
        ("p edge 2 16385\n", 2, 16385),
        ("p edge 1024 16384\n", 1024, 16384),
    ] {
        for p in [0, n, n + 1, n + 2] {
            // Half of them would do for the links kept, if each stands twice.
            for q in [0, m, 2 * m.max(1) - 1, 2 * m, 2 * m + 1] {
                import_into(script, file.as_bytes(), p, q);
            }
        }
    }
}

/// A sample's file with comments and repeated links, damaged by chance.
fn damaged_files(script: &mut Vec<u8>, sample: &Sample, random: &mut Random) {
    let comments = random.below(4);
    let file = disordered_file(random, sample, 25, comments);
    let links = file.split(|&byte| byte == b'\n');
    let links = links.filter(|line| line.starts_with(b"e")).count();
    let (p, q) = (sample.n + 1, 2 * links);
    import_into(script, &file, p, q);
    for _ in 0..3 {
        let mut bytes = file.clone();
        for _ in 0..1 + random.below(2) {
            damage(&mut bytes, b"0123456789 \ncpe\r\t\xff\x00", random);
        }
        import_into(script, &bytes, p + random.below(2), q + random.below(2));
    }
}

/// Reads texts into lists around the lengths that they need.
fn list_lengths(script: &mut Vec<u8>) {
    for text in [
        COURSE,
        "S,1,0\n",
        "S,2,1\nL,0,1\n",
        "S,2,1\nL,0,0\n",
        "S,2,1\nx",
        "S,1025,0\n",
    ] {
        for p in [0, 1, 2, 3, 6, 7, 8] {
            for q in [0, 1, 2, 11, 12, 13] {
                read_into(script, text.as_bytes(), p, q);
            }
        }
    }
}

/// Some of the small samples, few enough for a short script.
fn chosen_samples(random: &mut Random) -> Vec<Sample> {
    let mut samples = small_samples(5);
    samples.retain(|sample| sample.n <= 24 && sample.links().len() <= 60);
    random.shuffle(&mut samples);
    samples.truncate(60);
    samples
}

/// A sample's text with its links in any order, and damaged by chance.
fn damaged_texts(script: &mut Vec<u8>, sample: &Sample, random: &mut Random) {
    let text = shuffled_text(sample, random);
    let (p, q) = (sample.n + 1, 2 * sample.links().len());
    read_into(script, text.as_bytes(), p, q);
    for _ in 0..4 {
        let mut bytes = text.clone().into_bytes();
        for _ in 0..1 + random.below(2) {
            damage(&mut bytes, b"0123456789,\nLS x\xff\x00", random);
        }
        read_into(script, &bytes, p + random.below(2), q + random.below(2));
    }
}

fn shuffled_text(sample: &Sample, random: &mut Random) -> String {
    let mut links = sample.links();
    random.shuffle(&mut links);
    let mut text = format!("S,{},{}\n", sample.n, links.len());
    for (a, b) in links {
        let (a, b) = if random.percent(50) { (a, b) } else { (b, a) };
        text += &format!("L,{a},{b}\n");
    }
    text
}

/// Changes, removes or inserts a byte, cuts the end off, or repeats a line.
fn damage(bytes: &mut Vec<u8>, other: &[u8], random: &mut Random) {
    if bytes.is_empty() {
        return;
    }
    let at = random.below(bytes.len());
    let byte = other[random.below(other.len())];
    match random.below(6) {
        0 | 1 => bytes[at] = byte,
        2 => {
            bytes.remove(at);
        }
        3 => bytes.insert(at, byte),
        4 => bytes.truncate(at),
        _ => {
            let start = bytes[..at]
                .iter()
                .rposition(|&b| b == b'\n')
                .map_or(0, |i| i + 1);
            let line = bytes[start..at].to_vec();
            bytes.extend(line);
        }
    }
}

/// A sample's lists, written back, then with entries changed by chance.
fn damaged_lists(script: &mut Vec<u8>, sample: &Sample, random: &mut Random) {
    let text = sample.text();
    let (n, m) = (sample.n, sample.links().len());
    let (p, q) = (n + 1, 2 * m);
    read_into(script, text.as_bytes(), 1100, 33000);
    let length = text.len();
    for b in [length, length - 1, length + 1, 4096, 0] {
        writing(script, b'W', n, b, p, q);
    }
    // Exported, and imported again.
    let file = sample.file();
    let length = file.len();
    for b in [length - 1, length, length + 1, 0] {
        writing(script, b'X', n, b, p, q);
    }
    import_into(script, file.as_bytes(), p, q);
    for (n, p, q) in [
        (n, p - 1, q),
        (n, p + 1, q + 1),
        (n, p, q.max(1) - 1),
        (n + 1, p + 1, q),
        (n - 1, p, q),
        (1025, 1100, q),
        (0, p, q),
    ] {
        written(script, n, p, q);
    }
    // What stands past the entries used does not matter.
    set(script, b'S', p, 3);
    set(script, b'E', q, 9);
    written(script, n, p + 1, q + 1);
    for _ in 0..6 {
        let i = random.below(p);
        let near = [0, 1, 2, q / 2, q, q + 2, 65535, 65536, 4294967295];
        set(script, b'S', i, near[random.below(near.len())]);
        written(script, n, p, q);
        if random.percent(70) {
            // The lists are a survey's again.
            read_into(script, text.as_bytes(), 1100, 33000);
        }
    }
    read_into(script, text.as_bytes(), 1100, 33000);
    for _ in 0..6 {
        if q > 0 {
            let i = random.below(q);
            let near = [random.below(n), random.below(n), n, n + 1, 0, 65535];
            set(script, b'E', i, near[random.below(near.len())]);
            written(script, n, p, q);
            if random.percent(70) {
                read_into(script, text.as_bytes(), 1100, 33000);
            }
        }
    }
}

pub fn read_into(script: &mut Vec<u8>, text: &[u8], p: usize, q: usize) {
    reading(script, b'R', text, p, q);
}

fn import_into(script: &mut Vec<u8>, file: &[u8], p: usize, q: usize) {
    reading(script, b'I', file, p, q);
}

fn reading(script: &mut Vec<u8>, letter: u8, text: &[u8], p: usize, q: usize) {
    line(script, letter, p, q);
    line(script, b'K', text.len(), 0);
    script.extend(text);
}

/// Acceptance, and writing back and exporting into the whole buffer.
fn written(script: &mut Vec<u8>, n: usize, p: usize, q: usize) {
    line(script, b'A', n, 0);
    line(script, b'L', p, q);
    writing(script, b'W', n, 4096, p, q);
    writing(script, b'X', n, 4096, p, q);
}

/// Writes back or exports into the first b bytes of the buffer.
fn writing(script: &mut Vec<u8>, letter: u8, n: usize, b: usize, p: usize, q: usize) {
    line(script, letter, n, b);
    line(script, b'L', p, q);
}

fn set(script: &mut Vec<u8>, letter: u8, i: usize, x: usize) {
    line(script, letter, i, x);
}

pub fn line(script: &mut Vec<u8>, letter: u8, x: usize, y: usize) {
    script.push(letter);
    script.extend(format!(",{x},{y}\n").bytes());
}
