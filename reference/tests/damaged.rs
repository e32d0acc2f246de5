//! Damaged texts: the refusal is the stated one, and both lists are zero.

mod common;

use common::reading::{self, assert_met, check_counts, Damage, Links, Reading};
use common::{number, Random, COURSE};
use reference::{read, reports};

const READING: Reading = Reading { read, expected };

fn fields(line: &[u8], letter: &str) -> Option<(u64, u64)> {
    let line = std::str::from_utf8(line).ok()?;
    let (first, rest) = line.split_once(',')?;
    let (second, third) = rest.split_once(',')?;
    if first != letter {
        return None;
    }
    Some((number(second)?, number(third)?))
}

/// What a reading into lists of these lengths must give: n and the links.
fn expected(text: &[u8], starts: usize, neighbours: usize) -> Result<(usize, Links), u8> {
    let mut lines: Vec<&[u8]> = text.split(|&byte| byte == b'\n').collect();
    // What follows the last line feed; empty if the text ends at a line's end.
    let tail = lines.pop().unwrap();
    let first = lines.first().ok_or(1u8)?;
    let (n, m) = fields(first, "S").ok_or(1u8)?;
    check_counts(n, m, starts, neighbours)?;
    let mut links = Links::new();
    for index in 1..=m as usize {
        let Some(line) = lines.get(index) else {
            return Err(if tail.is_empty() { 7 } else { 1 });
        };
        let (a, b) = fields(line, "L").ok_or(1u8)?;
        if a.max(b) >= n {
            return Err(4);
        }
        if a == b {
            return Err(5);
        }
        if !links.insert((a.min(b) as usize, a.max(b) as usize)) {
            return Err(6);
        }
    }
    if lines.len() > m as usize + 1 || !tail.is_empty() {
        return Err(7);
    }
    Ok((n as usize, links))
}

const BAD_FIRST_LINES: &[&str] = &[
    "",
    "\n",
    "S",
    "S,",
    "S,1",
    "S,1,",
    "S,1,0",
    "S,1,0\r",
    "S,1,0\r\n",
    "s,1,0\n",
    "S,1\n",
    "S,1,0,0\n",
    "S,1,0,\n",
    " S,1,0\n",
    "S, 1,0\n",
    "S,1,0 \n",
    "S,01,0\n",
    "S,1,00\n",
    "S,00,0\n",
    "S,+1,0\n",
    "S,-1,0\n",
    "S,,0\n",
    "S,1,\n",
    "S;1;0\n",
    "\"S\",1,0\n",
    "S,12345678901,0\n",
    "S,1,12345678901\n",
    "S,1,00000000000\n",
    "S,1.0,0\n",
    "S,1e3,0\n",
    "L,0,1\n",
    "SS,1,0\n",
    ",1,0\n",
    "S,0x1,0\n",
    "\u{feff}S,1,0\n",
    "\nS,1,0\n",
    "S,\n1,0\n",
    "S,1025,0",
    "S,0,0",
    "S,2,16385",
    "S,1025,0\r\n",
    "S,1025,x\n",
    "S,0,01\n",
    "S,1\0,0\n",
    "S,1,0\0\n",
    "S,\u{661},0\n",
    ",,\n",
    "S,,\n",
    "1,0\n",
    "S,99999999999999999999,0\n",
];

#[test]
fn first_line_out_of_form() {
    READING.check_all(1, BAD_FIRST_LINES);
}

#[test]
fn link_line_out_of_form() {
    let texts = [
        "S,2,1\n\n",
        "S,2,1\nL",
        "S,2,1\nL,",
        "S,2,1\nL,0",
        "S,2,1\nL,0,",
        "S,2,1\nL,0,1",
        "S,2,1\nL,0,1\r\n",
        "S,2,1\nL,00,1\n",
        "S,2,1\nL,0,01\n",
        "S,2,1\nl,0,1\n",
        "S,2,1\nS,2,1\n",
        "S,2,1\nL,0\n",
        "S,2,1\nL,0,1,2\n",
        "S,2,1\nL,0,11111111111\n",
        "S,2,1\nL,9,9",
        "S,2,1\nL,1,1",
        "S,2,1\n L,0,1\n",
        "S,2,1\nL,-0,1\n",
        "S,2,1\nL,0, 1\n",
        "S,3,2\nL,0,1\nL,0,1",
        "S,3,2\nL,0,1\n\nL,0,2\n",
        "S,2,1\r\nL,0,1\r\n",
        "S,2,1\nL,,1\n",
        "S,2,1\n\nL,0,1\n",
        "S,2,1\nL,9,x\n",
        "S,2,1\nX",
        "S,3,3\nL,0,1\nx\nL,9,9\n",
    ];
    READING.check_all(1, &texts);
}

#[test]
fn counts_out_of_range() {
    let nodes = [
        "S,0,0\n",
        "S,1025,0\n",
        "S,9999999999,0\n",
        "S,4294967297,0\n",
        "S,65537,0\n",
        "S,0,16385\n",
        "S,1025,16385\n",
        "S,0,0\nX",
        "S,0,1\nL,0,0\n",
        "S,0,9999999999\n",
    ];
    READING.check_all(2, &nodes);
    let links = [
        "S,2,16385\n",
        "S,2,9999999999\n",
        "S,1024,16385\n",
        "S,2,4294967296\n",
        "S,2,16385\nL,0,0\n",
        "S,1,65536\nx",
        "S,2,4294967297\nL,0,1\n",
    ];
    READING.check_all(3, &links);
}

#[test]
fn wrong_nodes() {
    let outside = [
        "S,2,1\nL,0,2\n",
        "S,2,1\nL,2,0\n",
        "S,2,1\nL,2,2\n",
        "S,2,1\nL,4294967296,1\n",
        "S,2,1\nL,65536,1\n",
        "S,2,1\nL,9999999999,0\n",
        "S,1,1\nL,0,1\n",
        "S,2,2\nL,0,9\nbad",
        "S,2,1\nL,0,9\nX",
        "S,2,3\nL,0,9\nL,0,0\n",
        "S,2,2\nL,0,1\nL,1,2\n",
        "S,2,2\nL,0,2\n",
        "S,1024,1\nL,1024,0\n",
        "S,2,1\nL,1,4294967297\n",
    ];
    READING.check_all(4, &outside);
    let equal = [
        "S,2,1\nL,1,1\n",
        "S,1,1\nL,0,0\n",
        "S,2,2\nL,1,1\nL,9",
        "S,2,2\nL,0,1\nL,0,0\n",
        "S,2,2\nL,0,0\nL,0,9\n",
        "S,2,1\nL,1,1\nX",
        "S,2,2\nL,1,1\n",
    ];
    READING.check_all(5, &equal);
}

#[test]
fn repeated_links() {
    let texts = [
        "S,2,2\nL,0,1\nL,0,1\n",
        "S,2,2\nL,0,1\nL,1,0\n",
        "S,2,2\nL,1,0\nL,0,1\n",
        "S,2,3\nL,0,1\nL,1,0\n",
        "S,3,3\nL,0,1\nL,1,2\nL,1,0\n",
        "S,3,3\nL,0,1\nL,0,1\nL,9,9\n",
        "S,3,4\nL,0,1\nL,0,2\nL,1,2\nL,2,1\n",
        "S,2,2\nL,0,1\nL,0,1\nX",
        "S,2,3\nL,0,1\nL,1,0\nx",
    ];
    READING.check_all(6, &texts);
}

#[test]
fn too_few_lines_or_more_bytes() {
    let texts = [
        "S,2,1\n",
        "S,3,2\nL,0,1\n",
        "S,2,16384\n",
        "S,1,0\n\n",
        "S,1,0\nX",
        "S,1,0\nL,0,0\n",
        "S,2,1\nL,0,1\n\n",
        "S,2,1\nL,0,1\nL,0,1\n",
        "S,2,1\nL,0,1\n\0",
        "S,2,1\nL,0,1\nL",
        "S,2,1\nL,0,1\n\r\n",
        "S,2,2\nL,0,1\n",
        "S,1,0\nS,1,0\n",
        "S,2,1\nL,0,1\nL,9,9\n",
        "S,1,1\n",
        "S,2,1\nL,0,1\n ",
    ];
    READING.check_all(7, &texts);
}

#[test]
fn good_texts() {
    let texts = [
        "S,1,0\n",
        "S,1024,0\n",
        "S,2,1\nL,0,1\n",
        "S,2,1\nL,1,0\n",
        COURSE,
        "S,1024,1\nL,1023,0\n",
        "S,3,3\nL,2,1\nL,0,2\nL,1,0\n",
    ];
    READING.check_all(0, &texts);
}

#[test]
fn lists_too_short() {
    let cases: [(&str, usize, usize, u8); 15] = [
        ("S,2,1\nL,0,1\n", 3, 2, 0),
        ("S,2,1\nL,0,1\n", 2, 2, 8),
        ("S,2,1\nL,0,1\n", 3, 1, 8),
        ("S,2,1\nL,0,1\n", 0, 0, 8),
        ("S,2,1\nL,0,0\n", 2, 9, 8),
        ("S,2,1\nbad", 9, 1, 8),
        ("S,2,1\n", 9, 1, 8),
        ("S,2,1", 0, 0, 1),
        ("S,1025,1\n", 0, 0, 2),
        ("S,2,16385\n", 0, 0, 3),
        ("S,3,0\n", 4, 0, 0),
        ("S,3,0\n", 3, 0, 8),
        ("S,3,0\nX", 3, 0, 8),
        ("S,1024,16384\n", 1025, 32767, 8),
        ("S,1024,16384\n", 1025, 32768, 7),
    ];
    READING.check_all_lengths(&cases);
}

#[test]
fn cut_at_every_byte() {
    let mut random = Random::new(12);
    let sample = common::random_links(&mut random, 14, 50);
    for text in [COURSE, &sample.text(), "S,12,0\n"] {
        for length in 0..=text.len() {
            let cut = &text.as_bytes()[..length];
            let refusal = match cut.last() {
                _ if length == text.len() => 0,
                Some(b'\n') => 7,
                _ => 1,
            };
            assert_eq!(READING.check(cut), refusal, "{length}");
        }
    }
}

#[test]
fn every_single_byte_changed() {
    let texts = [COURSE, "S,11,3\nL,9,10\nL,10,1\nL,0,9\n"];
    for text in texts {
        READING.change_every_byte(text);
    }
}

#[test]
fn bytes_removed_inserted_and_swapped() {
    READING.remove_insert_and_swap(COURSE, b"SL,0159\n\r -\0\xff");
}

#[test]
fn random_damage() {
    const DAMAGE: Damage = Damage {
        counts_line: |nodes, links| format!("S,{nodes},{links}\n"),
        chance: 5,
        bytes: b"SL,0123456789\n",
    };
    let mut random = Random::new(13);
    let mut counts = [0; 14];
    for _ in 0..6000 {
        let n = 2 + random.below(9);
        let text = common::random_links(&mut random, n, 40).text();
        READING.damage(&mut random, text.as_bytes(), &DAMAGE, &mut counts);
    }
    assert_met(&counts, &[0, 1, 2, 3, 4, 5, 6, 7, 8]);
}

#[test]
fn random_bytes() {
    let mut random = Random::new(14);
    for _ in 0..3000 {
        let bytes = reading::random_bytes(&mut random, b"S,3,2\n", b"SL,012,\n");
        READING.check(&bytes);
        assert!(!reports(&bytes).is_empty());
    }
}
