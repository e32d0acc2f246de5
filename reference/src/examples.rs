//! The outcomes of the rules' examples that are not starred, one fact per
//! line. NOTES.md describes the line format.

use crate::common::{COURSE, SENT_BACK, SEPARATE_NODE};
use reference::{ask, build, read, reports, walk, write, Answer, Route, NONE, STORED};

/// The course survey's links in another order, some ends turned round.
const COURSE_TURNED: &str = "S,6,6\nL,2,1\nL,5,4\nL,3,5\nL,5,0\nL,2,5\nL,5,1\n";

/// A survey with its tables.
struct Built {
    n: usize,
    starts: Vec<u32>,
    neighbours: Vec<u16>,
    full: Vec<u16>,
    low: Vec<u16>,
    report: Vec<u16>,
    hubs: Vec<u16>,
    hub_count: usize,
}

/// All lines.
pub fn all() -> Result<String, u8> {
    let mut lines = listing("course", COURSE);
    lines += &reading("too-many-nodes", "S,1025,0\n");
    lines += &listing("too-many-nodes", "S,1025,0\n");
    lines += &reading("too-many-links", "S,2,16385\n");
    lines += &listing("too-many-links", "S,2,16385\n");
    lines += &reading("no-link", "S,2,0\n");
    lines += &listing("no-link", "S,2,0\n");
    let no_link = built("S,2,0\n")?;
    lines += &asked("no-link", &no_link, 0, 1)?;
    lines += &walked("no-link", &no_link, 0, 1)?;
    let course = built(COURSE)?;
    lines += &walked("course", &course, 0, 3)?;
    lines += &walked("course", &course, 5, 3)?;
    let sent_back = built(SENT_BACK)?;
    lines += &walked("sent-back", &sent_back, 0, 2)?;
    lines += &walked("sent-back", &sent_back, 3, 2)?;
    lines += &low_table("course", &course);
    lines += &hub_list("course", &course);
    let separate_node = built(SEPARATE_NODE)?;
    for a in 0..6 {
        lines += &asked("separate-node", &separate_node, a, 6)?;
    }
    lines += &written("course", &built(COURSE_TURNED)?)?;
    Ok(lines)
}

fn built(text: &str) -> Result<Built, u8> {
    let (mut starts, mut neighbours) = (vec![0; 1025], vec![0; 32768]);
    let (n, _) = read(text.as_bytes(), &mut starts, &mut neighbours)?;
    let mut tables = Built {
        n,
        starts,
        neighbours,
        full: vec![0; n * n],
        low: vec![0; n * n],
        report: vec![0; n * n],
        hubs: vec![0; n],
        hub_count: 0,
    };
    tables.hub_count = build(
        n,
        STORED,
        &tables.starts,
        &tables.neighbours,
        &mut tables.full,
        &mut tables.low,
        &mut tables.report,
        &mut tables.hubs,
    )?;
    Ok(tables)
}

fn listing(name: &str, text: &str) -> String {
    let output = reports(text.as_bytes());
    prefixed(&format!("{name},reports"), &output)
}

fn reading(name: &str, text: &str) -> String {
    let (mut starts, mut neighbours) = (vec![0; 1025], vec![0; 32768]);
    match read(text.as_bytes(), &mut starts, &mut neighbours) {
        Ok((n, m)) => format!("{name},read,{n},{m}\n"),
        Err(refusal) => format!("{name},read,refused,{refusal}\n"),
    }
}

fn asked(name: &str, built: &Built, a: usize, b: usize) -> Result<String, u8> {
    let answer = ask(built.n, &built.full, &built.low, &built.report, a, b)?;
    Ok(format!("{name},ask,{a},{b},{}\n", show_answer(answer)))
}

fn walked(name: &str, built: &Built, a: usize, b: usize) -> Result<String, u8> {
    let mut nodes = vec![0; 2 * built.n];
    let answer = walk(
        built.n,
        STORED,
        &built.starts,
        &built.neighbours,
        &built.full,
        &built.low,
        &built.report,
        a,
        b,
        &mut nodes,
    )?;
    nodes.retain(|&v| v != NONE);
    let mut line = format!("{name},walk,{a},{b},{}", show_answer(answer));
    for v in nodes {
        line += &format!(",{v}");
    }
    Ok(line + "\n")
}

fn low_table(name: &str, built: &Built) -> String {
    let mut lines = String::new();
    for (a, row) in built.low.chunks(built.n).enumerate() {
        lines += &format!("{name},low,{a},{}\n", show_entries(row));
    }
    lines
}

fn hub_list(name: &str, built: &Built) -> String {
    let entries = show_entries(&built.hubs);
    format!("{name},hubs,{},{entries}\n", built.hub_count)
}

fn written(name: &str, built: &Built) -> Result<String, u8> {
    let mut buffer = vec![0; 1000];
    let length = write(built.n, &built.starts, &built.neighbours, &mut buffer)?;
    Ok(prefixed(&format!("{name},written"), &buffer[..length]))
}

/// Puts the prefix before every line of the text.
fn prefixed(prefix: &str, text: &[u8]) -> String {
    let text = String::from_utf8_lossy(text);
    let lines = text.lines();
    lines.map(|line| format!("{prefix},{line}\n")).collect()
}

fn show_answer(answer: Answer) -> String {
    let report = show_entry(answer.report);
    match answer.route {
        Route::Itself => format!("{report},itself"),
        Route::Link => format!("{report},link"),
        Route::Low => format!("{report},low"),
        Route::Through(h) => format!("{report},{h}"),
        Route::NoRoute => format!("{report},-"),
    }
}

fn show_entries(entries: &[u16]) -> String {
    let shown: Vec<String> = entries.iter().map(|&entry| show_entry(entry)).collect();
    shown.join(",")
}

fn show_entry(entry: u16) -> String {
    if entry == NONE {
        String::from("-")
    } else {
        entry.to_string()
    }
}
