//! Every report in the programs' stored outputs, in what the C example prints
//! and in the listing lines that pages quote, where the tables are the built
//! ones: none exactly where no chain joins the pair, else between the fewest
//! links and two more.

mod common;

use common::{is_allowed, number, Built, Sample, COURSE, SENT_BACK, SEPARATE_NODE};
use reference::{reports, Route, NONE};
use std::fs;

fn stored(path: &str) -> String {
    let path = format!("{}/../{path}", env!("CARGO_MANIFEST_DIR"));
    fs::read_to_string(&path).unwrap_or_else(|error| panic!("{path}: {error}"))
}

/// The numbers of a line behind its letter; `-` is none.
fn numbers(line: &str) -> Vec<usize> {
    let fields = line.split(',').skip(1);
    let value = |field| match field {
        "-" => Some(u64::from(NONE)),
        _ => number(field),
    };
    fields.filter_map(value).map(|x| x as usize).collect()
}

/// The fewest links between the nodes of a survey's text.
struct Fewest(Vec<Vec<usize>>);

impl Fewest {
    fn of(text: &str) -> Fewest {
        let sample = Sample::of_text("stored", text);
        Fewest(common::distances(&sample, &vec![true; sample.n]))
    }

    fn nodes(&self) -> usize {
        self.0.len()
    }

    fn check(&self, a: usize, b: usize, report: usize) {
        assert!(is_allowed(self.0[a][b], report), "{a} and {b}: {report}");
    }

    fn check_table(&self, report: &[usize]) {
        let n = self.nodes();
        assert_eq!(report.len(), n * n);
        for (place, &entry) in report.iter().enumerate() {
            self.check(place / n, place % n, entry);
        }
    }
}

#[test]
fn listing() {
    let fewest = Fewest::of(&stored("crates/reports/stdin"));
    let listing = stored("crates/reports/stdout");
    let pairs: Vec<_> = listing.lines().skip(1).map(numbers).collect();
    let n = fewest.nodes();
    assert_eq!(pairs.len(), n * (n - 1) / 2);
    for pair in pairs {
        fewest.check(pair[0], pair[1], pair[2]);
    }
}

#[test]
fn examples() {
    let lines = stored("reference/stored/examples.txt");
    for (name, text) in [
        ("course", COURSE),
        ("no-link", "S,2,0\n"),
        ("separate-node", SEPARATE_NODE),
        ("sent-back", SENT_BACK),
    ] {
        let fewest = Fewest::of(text);
        let facts = ["reports,P,", "ask,", "walk,"].map(|fact| format!("{name},{fact}"));
        let pairs = lines
            .lines()
            .filter_map(|line| facts.iter().find_map(|fact| line.strip_prefix(fact)));
        let pairs: Vec<_> = pairs.map(|rest| numbers(&format!(",{rest}"))).collect();
        assert!(!pairs.is_empty(), "{name}");
        for pair in pairs {
            fewest.check(pair[0], pair[1], pair[2]);
        }
    }
}

/// What examples/survey.c prints for a pair.
fn shown(built: &Built, a: usize, b: usize) -> String {
    let mut list = vec![9; 2 * built.n];
    let answer = match built.walk(a, b, &mut list) {
        Ok(answer) => answer,
        Err(refusal) => return format!("ask: refused {refusal}\n"),
    };
    let route = match answer.route {
        Route::NoRoute => return format!("{a} and {b}: no route\n"),
        Route::Itself => String::new(),
        Route::Link => String::from(" by link"),
        Route::Low => String::from(" by low nodes"),
        Route::Through(h) => format!(" through hub {h}"),
    };
    let nodes = list.iter().filter(|&&v| v != NONE);
    let nodes: String = nodes.map(|v| format!(" {v}")).collect();
    let report = answer.report;
    format!("{a} and {b}: report {report}{route}\nwalk of {a} and {b}:{nodes}\n")
}

/// What examples/survey.c prints of the hubs.
fn shown_hubs(built: &Built) -> String {
    let hubs = built.hubs.iter().take(built.hub_count);
    let hubs: String = hubs.map(|h| format!(" {h}")).collect();
    format!("hubs:{hubs}\n")
}

/// A line of examples/run: the title that it prints, the survey, the threshold
/// and the pairs.
fn show(line: &str) -> Option<(String, String, usize, Vec<usize>)> {
    let words: Vec<&str> = line.split(" ||").next()?.split(' ').collect();
    let name = *words.get(1)?;
    let numbers = |words: &[&str]| {
        words
            .iter()
            .map(|word| word.parse().expect("a number"))
            .collect()
    };
    let (title, threshold, pairs) = match words[0] {
        "show" => (format!("== {name}\n"), 0, numbers(&words[2..])),
        "show_file" => (format!("== {name}, a file\n"), 0, numbers(&words[2..])),
        "show_by" => {
            let title = format!("== {name}, by threshold {}\n", words[2]);
            (title, words[2].parse().ok()?, numbers(&words[3..]))
        }
        _ => return None,
    };
    Some((
        title,
        stored(&format!("examples/{name}.txt")),
        threshold,
        pairs,
    ))
}

/// The pairs of examples/run are those of its lines `show`.
#[test]
fn c_example() {
    let expected = stored("examples/expected");
    let run = stored("examples/run");
    let mut shows = 0;
    for (title, text, threshold, pairs) in run.lines().map(str::trim_start).filter_map(show) {
        let (_, part) = expected.split_once(&title).expect("its title");
        let part = part.split("== ").next().unwrap_or(part);
        shows += 1;
        if threshold > 1024 {
            assert!(part.contains("build: refused 14\n"), "{title}");
            continue;
        }
        let sample = Sample::of_text(&title, &text);
        let (built, fewest) = (Built::of_sample(&sample, threshold), Fewest::of(&text));
        assert!(part.contains(&shown_hubs(&built)), "{title}");
        for pair in pairs.chunks(2) {
            let (a, b) = (pair[0], pair[1]);
            let lines = shown(&built, a, b);
            assert!(part.contains(&lines), "{lines} of {title}");
            if a < built.n && b < built.n {
                fewest.check(a, b, built.report[a * built.n + b].into());
            }
        }
    }
    assert_eq!(shows, expected.matches("== ").count());
}

/// The lines that a page quotes from listings, each with its survey's text:
/// one without links that the page names in the same line, or the course
/// survey's.
fn quoted(page: &str) -> Vec<(String, &str)> {
    let mut all = Vec::new();
    for line in page.lines() {
        let words = || line.split('`').map(str::trim_start);
        let named = words().find(|word| word.starts_with("S,"));
        let survey = named.map_or(String::from(COURSE), |word| format!("{word}\n"));
        let lines = words().filter(|word| word.starts_with("P,") || word.starts_with("R,"));
        all.extend(lines.map(|word| (survey.clone(), word)));
    }
    all
}

#[test]
fn quoted_lines() {
    for page in ["README.md", "docs/READING.md"] {
        let page = stored(page);
        let quoted = quoted(&page);
        assert!(!quoted.is_empty());
        for (survey, line) in quoted {
            let listing = String::from_utf8(reports(survey.as_bytes())).unwrap();
            assert!(listing.lines().any(|other| other == line), "{line}");
        }
    }
    let listing = stored("crates/reports/stdout");
    let indented: String = listing
        .lines()
        .map(|line| format!("    {line}\n"))
        .collect();
    assert!(stored("docs/READING.md").contains(&indented));
}

/// The script of `test_tables` beside its output: which tables stand, and
/// whether they are built.
#[derive(Default)]
struct Script {
    /// The survey that was read, while its lists stand as they were read.
    read: Option<String>,
    /// Of the survey that the tables were built from, while they stand so.
    fewest: Option<(String, Fewest)>,
    /// The count of nodes that calls are given.
    nodes: usize,
    tables: usize,
    pairs: usize,
}

impl Script {
    fn built(&mut self, refusal: usize) {
        if refusal != 0 {
            return;
        }
        let text = self.read.as_ref();
        let known = self.fewest.take().filter(|(old, _)| Some(old) == text);
        let fewest = known.or_else(|| text.map(|text| (text.clone(), Fewest::of(text))));
        self.fewest = fewest.filter(|(_, fewest)| fewest.nodes() == self.nodes);
    }

    /// Of the built tables, if a call was given their count of nodes.
    fn fewest(&self) -> Option<&Fewest> {
        let fewest = self.fewest.as_ref().map(|(_, fewest)| fewest);
        fewest.filter(|fewest| fewest.nodes() == self.nodes)
    }

    /// A command and, if it prints, the numbers of its line.
    fn command(&mut self, letter: u8, x: usize, y: usize, printed: &[usize]) {
        match letter {
            b'N' if x == 0 => self.nodes = y,
            b'S' | b'E' => self.read = None,
            b'F' | b'L' | b'P' => self.fewest = None,
            b'B' => self.built(printed[0]),
            b'V' if x == 5 => {
                self.fewest().expect("built tables").check_table(printed);
                self.tables += 1;
            }
            b'Q' | b'W' if printed[0] == 0 => {
                if let Some(fewest) = self.fewest() {
                    fewest.check(x, y, printed[1]);
                    self.pairs += 1;
                }
            }
            _ => {}
        }
    }
}

#[test]
fn script_of_tables() {
    let input = stored("crates/test_tables/stdin");
    let output = stored("crates/test_tables/stdout");
    let mut printed = output.lines();
    let mut next = || numbers(printed.next().expect("a line"));
    let mut rest = &input[..];
    let mut script = Script::default();
    while let Some((line, others)) = rest.split_once('\n') {
        rest = others;
        let (letter, words) = (line.as_bytes()[0], numbers(line));
        if letter == b'R' {
            let (count, others) = rest.split_once('\n').expect("the text's length");
            let (text, others) = others.split_at(numbers(count)[0]);
            rest = others;
            script.read = (next()[0] == 0).then(|| text.to_string());
            continue;
        }
        let line = if b"BVQWT".contains(&letter) {
            next()
        } else {
            Vec::new()
        };
        script.command(letter, words[0], words[1], &line);
    }
    assert_eq!(printed.next(), None);
    println!("{} tables, {} pairs", script.tables, script.pairs);
    assert!(script.tables > 0 && script.pairs > 0);
}

/// The sum that programs print of a list.
fn sum(list: &[u16]) -> usize {
    list.iter().fold(0, |sum, &entry| {
        (sum * 31 + usize::from(entry)) % 1_000_000_007
    })
}

#[test]
fn largest_survey() {
    let text = stored("crates/test_largest/stdin");
    let output = stored("crates/test_largest/stdout");
    let line = output.lines().find(|line| line.starts_with("B,"));
    let built = Built::of_text(&text);
    // The refusal, the hub count, the sums of Full, Low and Report.
    assert_eq!(numbers(line.expect("building"))[4], sum(&built.report));
    let report: Vec<usize> = built.report.iter().map(|&entry| entry.into()).collect();
    Fewest::of(&text).check_table(&report);
}
