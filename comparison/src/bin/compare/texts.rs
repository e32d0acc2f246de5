//! Survey texts: valid, damaged and hostile. Planners' files are damaged in the same ways.

use comparison::common::{self, Random, Sample};

/// How lines give the counts and the links of a survey.
pub struct Form {
    pub counts: &'static str,
    pub link: &'static str,
    pub separator: u8,
    /// What is put into a text to damage it.
    pub bytes: &'static [u8],
}

pub const TEXT: Form = Form {
    counts: "S",
    link: "L",
    separator: b',',
    bytes: b"SL,0123456789\n\r -+.x\0\xff/:",
};

impl Form {
    pub fn line(&self, word: &str, x: usize, y: usize) -> String {
        format!("{word}{0}{x}{0}{y}\n", char::from(self.separator))
    }

    fn fields<'a>(&self, line: &'a [u8]) -> Vec<&'a [u8]> {
        let line = line.strip_suffix(b"\n").unwrap_or(line);
        line.split(|&c| c == self.separator).collect()
    }
}

/// Numbers that a reader may take wrongly.
const NUMBERS: [&str; 24] = [
    "",
    "0",
    "00",
    "01",
    "1",
    "2",
    "128",
    "129",
    "1023",
    "1024",
    "1025",
    "2048",
    "2049",
    "16384",
    "16385",
    "65535",
    "65536",
    "4294967295",
    "4294967296",
    "9999999999",
    "10000000000",
    "18446744073709551616",
    "-1",
    "+1",
];

/// The survey's text, its lines in any order and the ends of links either way round.
pub fn valid(random: &mut Random, sample: &Sample) -> Vec<u8> {
    let mut links = sample.links();
    common::disorder(random, &mut links);
    common::text_of(sample.n, &links).into_bytes()
}

/// The text with one to three faults, some of which leave it a survey.
pub fn damaged(random: &mut Random, form: &Form, text: &[u8]) -> Vec<u8> {
    let mut text = text.to_vec();
    for _ in 0..1 + random.below(3) {
        text = match random.below(3) {
            0 => damage_bytes(random, form, text),
            1 => damage_lines(random, form, text),
            _ => damage_number(random, form, text),
        };
    }
    text
}

fn damage_bytes(random: &mut Random, form: &Form, mut text: Vec<u8>) -> Vec<u8> {
    let place = random.below(text.len() + 1);
    let byte = form.bytes[random.below(form.bytes.len())];
    match random.below(6) {
        0 if place < text.len() => text[place] ^= 1 << random.below(8),
        1 => text.truncate(place),
        2 if place < text.len() => {
            text.remove(place);
        }
        3 => text.insert(place, byte),
        4 => {
            text.pop();
        }
        _ => text.push(byte),
    }
    text
}

pub fn lines_of(text: &[u8]) -> Vec<Vec<u8>> {
    text.split_inclusive(|&c| c == b'\n')
        .map(<[u8]>::to_vec)
        .collect()
}

fn damage_lines(random: &mut Random, form: &Form, text: Vec<u8>) -> Vec<u8> {
    let mut lines = lines_of(&text);
    if lines.is_empty() {
        return text;
    }
    let (i, j) = (random.below(lines.len()), random.below(lines.len()));
    match random.below(7) {
        0 => lines.insert(i, lines[j].clone()),
        1 => lines.swap(i, j),
        2 => {
            lines.remove(i);
        }
        3 => lines[i] = lines[j].clone(),
        4 => lines[i] = turned(form, &lines[j]),
        5 => lines.push(turned(form, &lines[j])),
        _ => lines[i].insert(0, b'\n'),
    }
    lines.concat()
}

/// A link line with its ends the other way round.
fn turned(form: &Form, line: &[u8]) -> Vec<u8> {
    let separator = &[form.separator][..];
    match form.fields(line)[..] {
        [word, a, b] => [word, separator, b, separator, a, b"\n"].concat(),
        _ => line.to_vec(),
    }
}

/// Puts another number into a field of some line.
fn damage_number(random: &mut Random, form: &Form, text: Vec<u8>) -> Vec<u8> {
    let mut lines = lines_of(&text);
    if lines.is_empty() {
        return text;
    }
    let i = if random.percent(40) {
        0
    } else {
        random.below(lines.len())
    };
    let fields = form.fields(&lines[i]);
    let mut fields: Vec<Vec<u8>> = fields.into_iter().map(<[u8]>::to_vec).collect();
    let place = random.below(fields.len());
    fields[place] = match random.below(3) {
        0 => NUMBERS[random.below(NUMBERS.len())].into(),
        1 => random.below(40).to_string().into_bytes(),
        _ => fields[random.below(fields.len())].clone(),
    };
    lines[i] = [&fields.join(&form.separator), &b"\n"[..]].concat();
    lines.concat()
}

/// Bytes that are no survey, or only begin as one.
pub fn junk(random: &mut Random, form: &Form, length: usize) -> Vec<u8> {
    let kind = random.below(6);
    let line = form.line(form.link, random.below(30), random.below(30));
    let mut text = match kind {
        0 => form.line(form.counts, random.below(1100), random.below(20000)),
        1 => form.line(form.counts, 1024, 16384),
        _ => String::new(),
    }
    .into_bytes();
    while text.len() < length {
        match kind {
            0 | 2 => text.push(form.bytes[random.below(form.bytes.len())]),
            1 | 3 => text.extend(line.as_bytes()),
            4 => text.push(b'0' + random.below(10) as u8),
            _ => text.push(random.next() as u8),
        }
    }
    text
}
