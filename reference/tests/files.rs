//! Planners' files: what is imported, every refusal at its place, and files
//! that are exported and imported again.

mod common;

use common::reading::{self, assert_met, check_counts, Damage, Links, Reading};
use common::{disordered_file, number, Random, Sample, COURSE, COURSE_FILE};
use reference::{export, import, read};

const READING: Reading = Reading {
    read: import,
    expected,
};

fn fields(line: &str, front: &str) -> Option<(u64, u64)> {
    let numbers = line.strip_suffix('\n')?.strip_prefix(front)?;
    let (first, second) = numbers.split_once(' ')?;
    Some((number(first)?, number(second)?))
}

/// What an import into lists of these lengths must give: n and the links.
fn expected(text: &[u8], starts: usize, neighbours: usize) -> Result<(usize, Links), u8> {
    let is_comment = |line: &&[u8]| line.starts_with(b"c") && line.ends_with(b"\n");
    let mut lines = text
        .split_inclusive(|&byte| byte == b'\n')
        .filter(|line| !is_comment(line))
        .map(|line| std::str::from_utf8(line).unwrap_or("no line"));
    let first = lines.next().ok_or(13u8)?;
    let (n, m) = fields(first, "p edge ").ok_or(13u8)?;
    check_counts(n, m, starts, neighbours)?;
    let mut links = Links::new();
    for _ in 0..m {
        let (a, b) = lines
            .next()
            .and_then(|line| fields(line, "e "))
            .ok_or(13u8)?;
        if a.min(b) == 0 || a.max(b) > n {
            return Err(4);
        }
        if a == b {
            return Err(5);
        }
        links.insert((a.min(b) as usize - 1, a.max(b) as usize - 1));
    }
    match lines.next() {
        Some(_) => Err(13),
        None => Ok((n as usize, links)),
    }
}

/// The lists that an import leaves, and the links kept.
fn imported(text: &[u8]) -> (usize, Vec<u32>, Vec<u16>) {
    let (mut starts, mut neighbours) = (vec![9; 1025], vec![9; 32768]);
    let (_, links) = import(text, &mut starts, &mut neighbours).unwrap();
    (links, starts, neighbours)
}

#[test]
fn course_file() {
    let (links, starts, neighbours) = imported(COURSE_FILE.as_bytes());
    assert_eq!(links, 6);
    let (mut read_starts, mut read_neighbours) = (vec![9; 1025], vec![9; 32768]);
    read(COURSE.as_bytes(), &mut read_starts, &mut read_neighbours).unwrap();
    assert_eq!((&starts, &neighbours), (&read_starts, &read_neighbours));
    let mut buffer = [b'#'; 60];
    let length = export(6, &starts, &neighbours, &mut buffer).unwrap();
    let file = "p edge 6 6\ne 1 6\ne 2 3\ne 2 6\ne 3 6\ne 4 6\ne 5 6\n";
    assert_eq!(&buffer[..length], file.as_bytes());
    assert!(buffer[length..].iter().all(|&byte| byte == b'#'));
}

#[test]
fn good_files() {
    let texts = [
        "p edge 1 0\n",
        "p edge 1024 0\n",
        "p edge 2 1\ne 1 2\n",
        "p edge 2 1\ne 2 1\n",
        "p edge 1024 1\ne 1024 1\n",
        // Comments.
        "c\np edge 1 0\n",
        "cx\ncp edge 2 0\nc e 1 2\np edge 1 0\n",
        "c\r\nc\tx\nc\0\u{ff}\u{263a}\np edge 1 0\n",
        "p edge 1 0\nc\n",
        "p edge 1 0\nc\nc\ncc\n",
        "c\np edge 2 1\nc\ne 1 2\nc\n",
        "p edge 3 2\nc e 9 9\ne 1 2\nc\nc\ne 2 3\nc p edge 1 0\n",
        // Repeated links.
        "p edge 2 2\ne 1 2\ne 2 1\n",
        "p edge 2 2\ne 2 1\ne 1 2\n",
        "p edge 2 2\ne 1 2\ne 1 2\n",
        "p edge 3 5\ne 1 2\ne 2 3\ne 1 2\ne 3 2\ne 2 1\n",
        COURSE_FILE,
    ];
    READING.check_all(0, &texts);
}

#[test]
fn bytes_of_a_comment() {
    for byte in 0..=255 {
        let front = [b"c", &[byte][..], b"\np edge 2 1\ne 1 2\n"].concat();
        let back = [b"p edge 2 1\ne 1 2\nc", &[byte][..], b"\n"].concat();
        let refusal = if byte == b'\n' { 13 } else { 0 };
        assert_eq!(READING.check(&front), refusal, "{byte}");
        assert_eq!(READING.check(&back), refusal, "{byte}");
    }
}

#[test]
fn counts_line_out_of_form() {
    let texts = [
        "",
        "\n",
        "c",
        "c\n",
        "c\nc",
        "c\n\n",
        "c x",
        "p",
        "p\n",
        "p edge",
        "p edge\n",
        "p edge \n",
        "p edge 1\n",
        "p edge 1 \n",
        "p edge 1 0",
        "p edge 1 0\r\n",
        "p edge 1 0\r",
        "p edge 1 0 \n",
        "p edge 1 0 0\n",
        "p edge 1  0\n",
        "p edge  1 0\n",
        "p  edge 1 0\n",
        "p\tedge 1 0\n",
        "p edge\t1 0\n",
        "p edge 1\t0\n",
        " p edge 1 0\n",
        "P edge 1 0\n",
        "p Edge 1 0\n",
        "p EDGE 1 0\n",
        "p col 1 0\n",
        "p edges 1 0\n",
        "p edg 1 0\n",
        "p 1 0\n",
        "p,edge,1,0\n",
        "pedge 1 0\n",
        "p edge1 0\n",
        "p edge 01 0\n",
        "p edge 1 00\n",
        "p edge +1 0\n",
        "p edge -1 0\n",
        "p edge 1 -0\n",
        "p edge 1.0 0\n",
        "p edge 10000000000 0\n",
        "p edge 1 10000000000\n",
        "p edge 00000000001 0\n",
        "p edge 1025 x\n",
        "p edge 0 0",
        "p edge 0 01\n",
        "p edge 1025 0 \n",
        "p edge 2 16385",
        "p edge 1\0 0\n",
        "p edge \u{661} 0\n",
        "\u{feff}p edge 1 0\n",
        "\np edge 1 0\n",
        "S,1,0\n",
        "p edge,1,0\n",
        // Another line first.
        "e 1 2\np edge 2 1\n",
        "e 1 2\n",
        "n 1 5\np edge 1 0\n",
        "x\np edge 1 0\n",
        "c\ne 1 2\np edge 2 1\n",
        " c\np edge 1 0\n",
        "C\np edge 1 0\n",
    ];
    READING.check_all(13, &texts);
}

#[test]
fn counts_out_of_range() {
    let nodes = [
        "p edge 0 0\n",
        "c\np edge 0 0\n",
        "p edge 1025 0\n",
        "p edge 9999999999 0\n",
        "p edge 4294967297 0\n",
        "p edge 65537 0\n",
        "p edge 0 16385\n",
        "p edge 1025 16385\n",
        "p edge 0 0\nx",
        "p edge 0 9999999999\n",
        "p edge 0 1\ne 0 0\n",
    ];
    READING.check_all(2, &nodes);
    let links = [
        "p edge 2 16385\n",
        "c\np edge 2 16385\n",
        "p edge 2 9999999999\n",
        "p edge 1024 16385\n",
        "p edge 2 4294967296\n",
        "p edge 2 4294967297\ne 1 2\n",
        "p edge 2 16385\ne 0 0\n",
        "p edge 1 65536\nx",
        "p edge 2 16385\nc",
    ];
    READING.check_all(3, &links);
}

#[test]
fn link_line_out_of_form_or_place() {
    let texts = [
        "p edge 2 1\n\n",
        "p edge 2 1\ne",
        "p edge 2 1\ne\n",
        "p edge 2 1\ne 1",
        "p edge 2 1\ne 1\n",
        "p edge 2 1\ne 1 \n",
        "p edge 2 1\ne 1 2",
        "p edge 2 1\ne 1 2\r\n",
        "p edge 2 1\r\ne 1 2\r\n",
        "p edge 2 1\ne 1 2 \n",
        "p edge 2 1\ne 1 2 3\n",
        "p edge 2 1\ne  1 2\n",
        "p edge 2 1\ne 1  2\n",
        "p edge 2 1\ne\t1 2\n",
        "p edge 2 1\ne 1\t2\n",
        "p edge 2 1\n e 1 2\n",
        "p edge 2 1\nE 1 2\n",
        "p edge 2 1\na 1 2\n",
        "p edge 2 1\nL,0,1\n",
        "p edge 2 1\ne,1,2\n",
        "p edge 2 1\ne1 2\n",
        "p edge 2 1\nedge 1 2\n",
        "p edge 2 1\ne 01 2\n",
        "p edge 2 1\ne 1 02\n",
        "p edge 2 1\ne 00 0\n",
        "p edge 2 1\ne -1 2\n",
        "p edge 2 1\ne 1 10000000000\n",
        "p edge 2 1\ne 9 9",
        "p edge 2 1\ne 1 1",
        "p edge 2 1\ne 9 x\n",
        "p edge 2 1\np edge 2 1\ne 1 2\n",
        "p edge 2 1\np edge 2 1\n",
        "p edge 2 1\nn 1 5\ne 1 2\n",
        "p edge 2 1\n\ne 1 2\n",
        "p edge 3 2\ne 1 2\n\ne 2 3\n",
        "p edge 3 2\ne 1 2\nx\ne 9 9\n",
        "p edge 3 2\ne 1 2\n c\ne 2 3\n",
        // The text ends inside a comment.
        "p edge 2 1\nc",
        "p edge 2 1\nc e 1 2",
        "p edge 2 1\ne 1 2\nc",
        "p edge 1 0\nc x",
    ];
    READING.check_all(13, &texts);
}

#[test]
fn wrong_nodes() {
    let outside = [
        "p edge 2 1\ne 0 1\n",
        "p edge 2 1\ne 1 0\n",
        "p edge 2 1\ne 0 0\n",
        "p edge 2 1\ne 1 3\n",
        "p edge 2 1\ne 3 1\n",
        "p edge 2 1\ne 3 3\n",
        "p edge 1 1\ne 1 2\n",
        "p edge 1 1\ne 0 0\n",
        "p edge 2 1\ne 4294967297 1\n",
        "p edge 2 1\ne 1 4294967298\n",
        "p edge 2 1\ne 65537 2\n",
        "p edge 2 1\ne 9999999999 9999999999\n",
        "p edge 1024 1\ne 1025 1\n",
        "p edge 2 2\ne 1 9\nx",
        "p edge 2 3\ne 1 9\ne 1 1\n",
        "p edge 2 2\ne 1 2\ne 2 3\n",
        "p edge 2 2\ne 1 3\n",
        "p edge 2 1\nc\ne 0 2\nc",
        "p edge 2 1\ne 1 3\ne 1 2\n",
    ];
    READING.check_all(4, &outside);
    let equal = [
        "p edge 2 1\ne 2 2\n",
        "p edge 2 1\ne 1 1\n",
        "p edge 1 1\ne 1 1\n",
        "p edge 2 2\ne 1 1\ne 9",
        "p edge 2 2\ne 1 2\ne 1 1\n",
        "p edge 2 2\ne 2 2\ne 0 9\n",
        "p edge 2 2\ne 1 1\n",
        "p edge 2 1\nc\ne 1 1\nc",
        "p edge 2 1\ne 2 2\ne 1 2\n",
    ];
    READING.check_all(5, &equal);
}

#[test]
fn wrong_count_of_lines() {
    let texts = [
        "p edge 2 1\n",
        "p edge 2 1\nc\n",
        "p edge 3 2\ne 1 2\n",
        "p edge 3 2\ne 1 2\nc\n",
        "p edge 2 16384\n",
        "p edge 1 1\n",
        "p edge 1 0\n\n",
        "p edge 1 0\nx",
        "p edge 1 0\ne 1 1\n",
        "p edge 1 0\ne 0 0\n",
        "p edge 1 0\np edge 1 0\n",
        "p edge 2 0\ne 1 2\n",
        "p edge 2 1\ne 1 2\n\n",
        "p edge 2 1\ne 1 2\n ",
        "p edge 2 1\ne 1 2\n\0",
        "p edge 2 1\ne 1 2\ne 1 2\n",
        "p edge 2 1\ne 1 2\ne 2 1\n",
        "p edge 2 1\ne 1 2\nc\ne 1 2\n",
        "p edge 2 1\ne 1 2\ne 9 9\n",
        "p edge 2 1\ne 1 2\ne 1 1\n",
        "p edge 2 1\ne 1 2\np edge 2 1\n",
        "p edge 2 1\ne 1 2\n\r\n",
        "p edge 2 1\ne 1 2\nC\n",
    ];
    READING.check_all(13, &texts);
}

/// 8 goes by the file's m, also where fewer links are kept.
#[test]
fn lists_too_short() {
    let cases: [(&str, usize, usize, u8); 20] = [
        ("p edge 2 1\ne 1 2\n", 3, 2, 0),
        ("p edge 2 1\ne 1 2\n", 2, 2, 8),
        ("p edge 2 1\ne 1 2\n", 3, 1, 8),
        ("p edge 2 1\ne 1 2\n", 0, 0, 8),
        ("p edge 2 2\ne 1 2\ne 2 1\n", 3, 4, 0),
        ("p edge 2 2\ne 1 2\ne 2 1\n", 3, 3, 8),
        ("p edge 2 2\ne 1 2\ne 2 1\n", 3, 2, 8),
        ("p edge 2 2\ne 1 2\ne 2 1\n", 3, 9, 0),
        ("c\np edge 2 1\nc\ne 1 2\n", 3, 1, 8),
        ("p edge 2 1\ne 0 0\n", 2, 9, 8),
        ("p edge 2 1\nbad", 9, 1, 8),
        ("p edge 2 1\n", 9, 1, 8),
        ("p edge 2 1", 0, 0, 13),
        ("p edge 1025 1\n", 0, 0, 2),
        ("p edge 2 16385\n", 0, 0, 3),
        ("p edge 3 0\n", 4, 0, 0),
        ("p edge 3 0\n", 3, 0, 8),
        ("p edge 3 0\nx", 3, 0, 8),
        ("p edge 1024 16384\n", 1025, 32767, 8),
        ("p edge 1024 16384\n", 1025, 32768, 13),
    ];
    READING.check_all_lengths(&cases);
}

#[test]
fn cut_at_every_byte() {
    for text in [COURSE_FILE, "c\np edge 12 0\nc\n"] {
        for length in 0..=text.len() {
            let cut = &text[..length];
            // Nothing but comments may be missing.
            let whole = cut.ends_with('\n') && text[length..].lines().all(|x| x.starts_with('c'));
            let counts = cut.lines().any(|line| line.starts_with('p'));
            let refusal = if whole && counts { 0 } else { 13 };
            assert_eq!(READING.check(cut.as_bytes()), refusal, "{cut:?}");
        }
    }
}

#[test]
fn every_single_byte_changed() {
    let texts = [
        COURSE_FILE,
        "p edge 11 3\ne 9 10\nc\ne 10 1\ne 1 9\n",
        "cc\np edge 3 4\ne 1 2\ne 2 1\ne 2 3\ne 1 3\nc\n",
    ];
    for text in texts {
        READING.change_every_byte(text);
    }
}

#[test]
fn bytes_removed_inserted_and_swapped() {
    READING.remove_insert_and_swap(COURSE_FILE, b"cpe 0167\n\r\t-\0\xff");
}

#[test]
fn random_damage() {
    const DAMAGE: Damage = Damage {
        counts_line: |nodes, links| format!("p edge {nodes} {links}\n"),
        chance: 10,
        bytes: b"cpe 0123456789\n",
    };
    let mut random = Random::new(16);
    let mut counts = [0; 14];
    for _ in 0..6000 {
        let n = 2 + random.below(9);
        let sample = common::random_links(&mut random, n, 40);
        let comments = random.below(4);
        let file = disordered_file(&mut random, &sample, 30, comments);
        READING.damage(&mut random, &file, &DAMAGE, &mut counts);
    }
    assert_met(&counts, &[0, 2, 3, 4, 5, 8, 13]);
}

#[test]
fn random_bytes() {
    let mut random = Random::new(17);
    for _ in 0..3000 {
        let bytes = reading::random_bytes(&mut random, b"p edge 3 2\n", b"cpe 123 \n");
        READING.check(&bytes);
    }
}

/// Exported, a survey is its file; imported again, it is itself, as it is
/// when its text is read.
fn check_round_trip(sample: &Sample, random: &mut Random) {
    let (n, m) = (sample.n, sample.links().len());
    let (mut starts, mut neighbours) = sample.lists();
    let mut buffer = vec![b'#'; 300_000];
    let length = export(n, &starts, &neighbours, &mut buffer).unwrap();
    assert_eq!(&buffer[..length], sample.file().as_bytes());
    assert!(buffer[length..].iter().all(|&byte| byte == b'#'));
    let (mut exact_starts, mut exact_neighbours) = (vec![9; n + 1], vec![9; 2 * m]);
    let answer = import(&buffer[..length], &mut exact_starts, &mut exact_neighbours);
    assert_eq!(answer, Ok((n, m)));
    assert_eq!((&exact_starts, &exact_neighbours), (&starts, &neighbours));
    starts.resize(1025, 0);
    neighbours.resize(32768, 0);
    let (mut read_starts, mut read_neighbours) = (vec![9; 1025], vec![9; 32768]);
    let answer = read(
        sample.text().as_bytes(),
        &mut read_starts,
        &mut read_neighbours,
    );
    assert_eq!(answer, Ok((n, m)));
    assert_eq!((&read_starts, &read_neighbours), (&starts, &neighbours));
    if 2 * m <= 16384 {
        let file = disordered_file(random, sample, 30, 3);
        assert_eq!(imported(&file), (m, starts, neighbours), "{}", sample.name);
    }
}

#[test]
fn round_trips() {
    let mut random = Random::new(18);
    let mut samples = common::small_samples(5);
    samples.extend(common::larger_samples(6));
    for sample in &samples {
        check_round_trip(sample, &mut random);
    }
}

/// As many nodes and links as a survey may have, and the longest file.
#[test]
fn largest_survey() {
    let mut sample = Sample::new("largest", 1024);
    let mut left = 16384;
    'all: for a in (0..1024).rev() {
        for b in (0..a).rev() {
            sample.link(a, b);
            left -= 1;
            if left == 0 {
                break 'all;
            }
        }
    }
    check_round_trip(&sample, &mut Random::new(19));
    assert!(sample.file().len() <= 18 + 12 * 16384);
}
