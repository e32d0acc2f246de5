//! What the program `puxerdau` prints, each form of docs/COMMANDS.md worked
//! out by hand.

mod common;

use common::{COURSE, COURSE_FILE, SENT_BACK};
use reference::desk;
use std::io::Write;
use std::process::{Command, Stdio};

const CHAIN: &str = "S,5,4\nL,0,1\nL,1,2\nL,2,3\nL,3,4\n";
const LONG_CHAIN: &str = "S,8,7\nL,0,1\nL,1,2\nL,2,3\nL,3,4\nL,4,5\nL,5,6\nL,6,7\n";
const NO_LINK: &str = "S,2,0\n";
const TWO_HUBS: &str = "S,5,3\nL,0,1\nL,2,3\nL,3,4\n";

/// What is printed for these words, parted by spaces.
fn printed(words: &str, text: &str) -> String {
    let words: Vec<&[u8]> = words.split(' ').map(str::as_bytes).collect();
    String::from_utf8(desk(&words, text.as_bytes())).expect("plain bytes")
}

#[track_caller]
fn check(words: &str, text: &str, expected: &str) {
    assert_eq!(printed(words, text), expected, "{words}");
}

/// For words that may hold anything.
#[track_caller]
fn check_bytes(words: &[&[u8]], expected: &str) {
    let shown = desk(words, COURSE.as_bytes());
    assert_eq!(String::from_utf8_lossy(&shown), expected, "{words:?}");
}

fn stored(path: &str) -> String {
    let path = format!("{}/../{path}", env!("CARGO_MANIFEST_DIR"));
    std::fs::read_to_string(&path).unwrap_or_else(|error| panic!("{path}: {error}"))
}

// Words

/// The block of the page, without its four spaces.
fn help_of_page() -> String {
    let page = stored("docs/COMMANDS.md");
    let (_, block) = page
        .split_once("## What `help` prints\n\n")
        .expect("the heading");
    let is_block = |line: &&str| line.is_empty() || line.starts_with("    ");
    let lines = block.lines().take_while(is_block);
    let text: Vec<&str> = lines
        .map(|line| line.strip_prefix("    ").unwrap_or(""))
        .collect();
    text.join("\n").trim_end().to_string() + "\n"
}

#[test]
fn help_is_the_block_of_the_page() {
    let help = help_of_page();
    assert!(help.starts_with("puxerdau: how many links"));
    assert!(help.ends_with("the place, and why.\n"));
    check("help", COURSE, &help);
    check_bytes(&[], &help);
}

#[test]
fn no_command() {
    let line = "not understood: the first word is not a command; \
        usage: puxerdau COMMAND [WORDS ..] < survey.txt; \
        commands: pair walk test hubs reports check write export import help\n";
    for word in [
        "",
        "pairs",
        "pai",
        "Pair",
        "1",
        "--threshold",
        "--help",
        " pair",
        "pair\n",
        "help ",
    ] {
        check_bytes(&[word.as_bytes()], line);
        check_bytes(&[word.as_bytes(), b"1", b"3"], line);
    }
    check_bytes(&[b"test\xff"], line);
    check_bytes(&[&[b'7'; 6000]], line);
}

/// Each usage as the page's rules for it give it.
const USAGES: [(&str, &str); 10] = [
    ("pair", "puxerdau pair A B [--threshold T] < survey.txt"),
    ("walk", "puxerdau walk A B [--threshold T] < survey.txt"),
    ("test", "puxerdau test [--threshold T] < survey.txt"),
    ("hubs", "puxerdau hubs [--threshold T] < survey.txt"),
    ("reports", "puxerdau reports [--threshold T] < survey.txt"),
    ("check", "puxerdau check < survey.txt"),
    ("write", "puxerdau write < survey.txt"),
    ("export", "puxerdau export < survey.txt"),
    ("import", "puxerdau import < edges.col"),
    ("help", "puxerdau help"),
];

fn usage(words: &str) -> &'static str {
    let command = words.split(' ').next();
    let usage = USAGES.iter().find(|(name, _)| Some(*name) == command);
    usage.expect("a command").1
}

/// That the words are not understood, for this fault.
#[track_caller]
fn check_fault(words: &str, fault: &str) {
    let line = format!("not understood: {fault}; usage: {}\n", usage(words));
    check(words, COURSE, &line);
    // The text is not read.
    check(words, "", &line);
}

/// Words after the command count from 1.
fn no_number(place: usize) -> String {
    format!("word {place} after the command is not a number (one to ten digits, no leading zero)")
}

fn one_too_many(place: usize) -> String {
    format!("word {place} after the command is one too many")
}

#[test]
fn every_usage() {
    for (command, _) in USAGES {
        let (words, place) = match command {
            "pair" | "walk" => (format!("{command} 1 3 5"), 3),
            _ => (format!("{command} 1"), 1),
        };
        check_fault(&words, &one_too_many(place));
    }
}

#[test]
fn words_that_are_no_number() {
    check_fault("pair x 3", &no_number(1));
    check_fault("pair 1 x", &no_number(2));
    check_fault("pair x y", &no_number(1));
    check_fault("pair x", &no_number(1));
    check_fault("pair 1 x 5 6 7", &no_number(2));
    check_fault("pair --threshold x 1 3", &no_number(2));
    check_fault("walk 1 --threshold x 3", &no_number(3));
    check_fault("walk 1 3 --threshold x", &no_number(4));
    check_fault("walk --threshold 5 x 3", &no_number(3));
    check_fault("test --threshold x", &no_number(2));
    check_fault("hubs --threshold --threshold", &no_number(2));
    check_fault("reports --threshold --threshold 3", &no_number(2));
    // A second one, where A or B is still needed.
    check_fault("pair --threshold 3 --threshold 4 1 3", &no_number(3));
    check_fault("pair 1 --threshold 3 --threshold 4 3", &no_number(4));
}

#[test]
fn what_is_a_number() {
    let line = "not understood: \
        word 2 after the command is not a number (one to ten digits, no leading zero); \
        usage: puxerdau pair A B [--threshold T] < survey.txt\n";
    let words: [&[u8]; 30] = [
        b"",
        b"-1",
        b"+1",
        b"00",
        b"01",
        b"0000000001",
        b"12345678901",
        b"00000000000",
        b" 1",
        b"1 ",
        b"1\n",
        b"\n",
        b"1 2",
        b"1,2",
        b"1.0",
        b"0x1",
        b"one",
        b"\xff",
        b"1\xff",
        b"--",
        b"--threshold=3",
        b"1\x802",
        b"--threshol",
        b"--threshole",
        b"--thresholds",
        b"123456789012345",
        b"1234567890123456",
        b"12345678901234567",
        b"13333333333",
        b"3211111111111",
    ];
    for word in words {
        check_bytes(&[b"pair", b"1", word], line);
    }
    check_bytes(&[b"pair", b"1", &[b'1'; 6000]], line);
    check(
        "pair 9999999999 0",
        COURSE,
        "refused 10 at node 9999999999: the nodes are 0 to 5\n",
    );
    for node in ["1000000000", "2147483648", "3999999999"] {
        check(
            &format!("pair 0 {node}"),
            COURSE,
            &format!("refused 10 at node {node}: the nodes are 0 to 5\n"),
        );
    }
}

/// Words that begin like `--threshold` are others.
#[test]
fn nearly_a_threshold() {
    for word in ["--threshol", "--threshole", "--thresholds"] {
        check_fault(&format!("test {word} 3"), &one_too_many(1));
        check_fault(&format!("pair 1 3 {word} 3"), &one_too_many(3));
        check_fault(&format!("pair {word} 3 1 3"), &no_number(1));
        check_fault(&format!("test --threshold {word}"), &no_number(2));
    }
}

#[test]
fn words_that_are_too_many() {
    check_fault("pair 1 3 x", &one_too_many(3));
    check_fault("walk 1 3 --threshold 5 2", &one_too_many(5));
    check_fault("walk --threshold 5 1 3 2", &one_too_many(5));
    check_fault("pair 1 3 --threshold 5 --threshold 5", &one_too_many(5));
    check_fault("pair 1 --threshold 5 3 --threshold", &one_too_many(5));
    check_fault("test 1 --threshold 3", &one_too_many(1));
    check_fault("test --threshold 3 --threshold 3", &one_too_many(3));
    check_fault("test ", &one_too_many(1));
    check_fault("help help", &one_too_many(1));
    // Taken for any other word.
    for command in ["check", "write", "export", "import", "help"] {
        check_fault(&format!("{command} --threshold 3"), &one_too_many(1));
        check_fault(&format!("{command} --threshold"), &one_too_many(1));
    }
}

#[test]
fn a_word_is_missing() {
    for words in [
        "pair",
        "walk 1",
        "pair 1 3 --threshold",
        "pair --threshold",
        "pair 1 --threshold",
        "walk --threshold 5",
        "walk --threshold 5 1",
        "walk 1 --threshold 5",
        "test --threshold",
        "hubs --threshold",
        "reports --threshold",
    ] {
        check_fault(words, "a word is missing");
    }
}

// Answers

#[test]
fn pair() {
    check(
        "pair 1 3",
        COURSE,
        "nodes 1 and 3 report 4 by hub 0\nat least 2 and at most 4 links are needed\n",
    );
    check(
        "pair 0 3",
        COURSE,
        "nodes 0 and 3 report 2 by hub 0\nexactly 2 links are needed\n",
    );
    check(
        "pair 5 1",
        COURSE,
        "nodes 5 and 1 report 1 by link\nexactly 1 link is needed\n",
    );
    check(
        "pair 5 5",
        COURSE,
        "nodes 5 and 5 report 0 by itself\nexactly 0 links are needed\n",
    );
    check(
        "pair 0 1",
        NO_LINK,
        "nodes 0 and 1 report no route\nno chain of links joins them\n",
    );
}

#[test]
fn what_a_report_says() {
    check(
        "pair 0 3",
        CHAIN,
        "nodes 0 and 3 report 3 by low nodes\nat least 2 and at most 3 links are needed\n",
    );
    check(
        "pair 0 2",
        SENT_BACK,
        "nodes 0 and 2 report 3 by hub 0\nat least 2 and at most 3 links are needed\n",
    );
    check(
        "pair 0 5",
        LONG_CHAIN,
        "nodes 0 and 5 report 5 by low nodes\nat least 3 and at most 5 links are needed\n",
    );
    check(
        "pair 7 0",
        LONG_CHAIN,
        "nodes 7 and 0 report 7 by low nodes\nat least 5 and at most 7 links are needed\n",
    );
}

#[test]
fn walk() {
    check(
        "walk 1 3",
        COURSE,
        "nodes 1 and 3 report 4 by hub 0\nat least 2 and at most 4 links are needed\nwalk 1 5 0 5 3\n",
    );
    check(
        "walk 1 2",
        COURSE,
        "nodes 1 and 2 report 1 by link\nexactly 1 link is needed\nwalk 1 2\n",
    );
    check(
        "walk 5 5",
        COURSE,
        "nodes 5 and 5 report 0 by itself\nexactly 0 links are needed\nwalk 5\n",
    );
    check(
        "walk 4 0",
        CHAIN,
        "nodes 4 and 0 report 4 by low nodes\nat least 2 and at most 4 links are needed\nwalk 4 3 2 1 0\n",
    );
    check(
        "walk 0 1",
        NO_LINK,
        "nodes 0 and 1 report no route\nno chain of links joins them\n",
    );
}

#[test]
fn threshold_anywhere_behind_the_command() {
    let lines = "nodes 1 and 3 report 2 by low nodes\nexactly 2 links are needed\n";
    check("pair 1 3 --threshold 6", COURSE, lines);
    check("pair 1 --threshold 6 3", COURSE, lines);
    check("pair --threshold 6 1 3", COURSE, lines);
    check("pair --threshold 1024 1 3", COURSE, lines);
    check(
        "walk --threshold 6 1 3",
        COURSE,
        &format!("{lines}walk 1 5 3\n"),
    );
    // 0 asks for the stored table's.
    check(
        "pair --threshold 0 1 3",
        COURSE,
        "nodes 1 and 3 report 4 by hub 0\nat least 2 and at most 4 links are needed\n",
    );
}

#[test]
fn test() {
    check(
        "test",
        COURSE,
        "short after 2 searches\nevery two nodes are at most 3 links apart\n",
    );
    check(
        "test --threshold 1",
        COURSE,
        "short after 1 search\nevery two nodes are at most 3 links apart\n",
    );
    check(
        "test",
        CHAIN,
        "long after 2 searches\nevery two nodes are joined, and some two are 3 or more links apart\n",
    );
    check(
        "test",
        NO_LINK,
        "parted after 1 search\nsome two nodes are joined by no chain of links\n",
    );
}

#[test]
fn hubs() {
    check(
        "hubs",
        COURSE,
        "1 hub: 0\nhigh nodes 1 of 6 with 5 or more neighbours\n",
    );
    check(
        "hubs --threshold 2",
        COURSE,
        "1 hub: 1\nhigh nodes 3 of 6 with 2 or more neighbours\n",
    );
    check(
        "hubs --threshold 6",
        COURSE,
        "0 hubs\nhigh nodes 0 of 6 with 6 or more neighbours\n",
    );
    // Node 3 covers three nodes, and then 0 the other two.
    check(
        "hubs --threshold 1",
        TWO_HUBS,
        "2 hubs: 3 0\nhigh nodes 5 of 5 with 1 or more neighbours\n",
    );
    check(
        "hubs",
        "S,1,0\n",
        "0 hubs\nhigh nodes 0 of 1 with 1 or more neighbours\n",
    );
}

#[test]
fn listings() {
    check("reports", COURSE, &stored("crates/reports/stdout"));
    check(
        "reports --threshold 0",
        COURSE,
        &stored("crates/reports/stdout"),
    );
    check(
        "reports --threshold 6",
        COURSE,
        "R,6,0\nP,0,1,2,low\nP,0,2,2,low\nP,0,3,2,low\nP,0,4,2,low\nP,0,5,1,link\n\
         P,1,2,1,link\nP,1,3,2,low\nP,1,4,2,low\nP,1,5,1,link\nP,2,3,2,low\nP,2,4,2,low\n\
         P,2,5,1,link\nP,3,4,2,low\nP,3,5,1,link\nP,4,5,1,link\n",
    );
    check("reports", NO_LINK, "R,2,0\nP,0,1,-,-\n");
    check("reports", "S,1,0\n", "R,1,0\n");
}

#[test]
fn texts_and_files() {
    let text = "S,6,6\nL,0,5\nL,1,2\nL,1,5\nL,2,5\nL,3,5\nL,4,5\n";
    check("check", COURSE, "accepted nodes 6 links 6\n");
    check("check", NO_LINK, "accepted nodes 2 links 0\n");
    check("write", COURSE, text);
    check(
        "export",
        COURSE,
        "p edge 6 6\ne 1 6\ne 2 3\ne 2 6\ne 3 6\ne 4 6\ne 5 6\n",
    );
    check("import", COURSE_FILE, text);
    check("import", &stored("examples/course.col"), text);
    check("export", NO_LINK, "p edge 2 0\n");
    check("import", "p edge 2 0\n", NO_LINK);
}

// Refusals

const FIRST_LINE: &str = "refused 1 at line 1: \
    the first line of a survey is S,n,m and a line feed; no spaces, carriage returns or leading zeros\n";

fn link_line(line: usize) -> String {
    format!("refused 1 at line {line}: a link line is L,a,b and a line feed; no spaces, carriage returns or leading zeros\n")
}

#[test]
fn lines_out_of_form() {
    for text in [
        "",
        "\n",
        "S,6,6",
        "S,6\n",
        "S,06,6\n",
        "\nS,1,0\n",
        "p edge 6 6\n",
        "L,0,1\n",
    ] {
        check("check", text, FIRST_LINE);
        check("reports", text, FIRST_LINE);
    }
    check("check", "S,6,2\nL,0,1\nL,1\nL,0,1\n", &link_line(3));
    check("check", "S,6,2\n\n", &link_line(2));
    check("check", "S,6,2\nL,0,1\nL,1,2", &link_line(3));
    check("check", "S,6,2\nL,0,1\nL", &link_line(3));
    check("check", "S,6,2\nL,0,9999999999,\n", &link_line(2));
    check("reports", "S,6,2\nL,0,1\nL\n", &link_line(3));
}

/// What other programs make of a text when they keep it.
#[test]
fn texts_that_were_kept_otherwise() {
    check("check", &COURSE.replace('\n', "\r\n"), FIRST_LINE);
    check("check", &format!("\u{feff}{COURSE}"), FIRST_LINE);
    check("check", &format!("{COURSE}\n"), &wrong_count(8));
    check("check", &COURSE.replace(',', ", "), FIRST_LINE);
    check("check", "S,6,2\nL,0,1\r\nL,1,2\n", &link_line(2));
    check("check", "S,6,2\nL,0,1\nL,1, 2\n", &link_line(3));
}

#[test]
fn counts_out_of_limits() {
    let nodes = "refused 2 at line 1: a survey has 1 to 1024 nodes\n";
    for text in ["S,0,0\n", "S,1025,0\n", "S,9999999999,9999999999\n"] {
        check("check", text, nodes);
    }
    let links = "refused 3 at line 1: a survey has at most 16384 links\n";
    check("check", "S,2,16385\n", links);
    check("write", "S,1024,9999999999\nx", links);
    check("check", "S,1024,16384\n", &wrong_count(2));
}

#[test]
fn limits_of_the_listing() {
    let nodes = "refused 2 at line 1: reports takes 1 to 128 nodes\n";
    check("reports", "S,129,0\n", nodes);
    check("reports", "S,1025,0\n", nodes);
    check("reports", "S,0,0\n", nodes);
    check("reports", "S,0,2049\n", nodes);
    let links = "refused 3 at line 1: reports takes at most 2048 links\n";
    check("reports", "S,128,2049\n", links);
    check("reports", "S,128,16385\n", links);
    check("reports --threshold 2000", "S,128,2049\n", links);
    check("reports", "S,128,2048\n", &wrong_count(2));
    check(
        "reports --threshold 2000",
        "S,128,0\n",
        "refused 14 at threshold 2000: a threshold is at most 1024\n",
    );
}

#[test]
fn links_out_of_place() {
    let node = "refused 4 at line 3: the nodes are 0 to 5\n";
    check("check", "S,6,6\nL,0,1\nL,6,1\n", node);
    check("check", "S,6,6\nL,0,1\nL,0,9999999999\n", node);
    check("check", "S,6,6\nL,0,1\nL,6,6\n", node);
    check(
        "check",
        "S,1,1\nL,0,1\n",
        "refused 4 at line 2: the nodes are 0 to 0\n",
    );
    check(
        "check",
        "S,6,6\nL,0,1\nL,3,3\n",
        "refused 5 at line 3: a link joins two different nodes\n",
    );
    check(
        "check",
        "S,6,6\nL,0,1\nL,1,0\n",
        "refused 6 at line 3: the link was given before, either way round\n",
    );
}

fn wrong_count(line: usize) -> String {
    format!(
        "refused 7 at line {line}: as many links must follow line 1 as it says, and nothing else\n"
    )
}

#[test]
fn wrong_counts_of_links() {
    // Fewer: the end of the text.
    check("check", &COURSE.replace("S,6,6", "S,6,7"), &wrong_count(8));
    check("check", "S,2,1\n", &wrong_count(2));
    // More: the line behind the last link, whatever it says.
    check("check", &format!("{COURSE}L,3,4\n"), &wrong_count(8));
    check("check", &format!("{COURSE}\n\n\n"), &wrong_count(8));
    check("check", &format!("{COURSE}x"), &wrong_count(8));
    check("check", "S,2,0\nx\n", &wrong_count(2));
}

#[test]
fn nodes_that_are_none() {
    let line = |node: u64| format!("refused 10 at node {node}: the nodes are 0 to 5\n");
    check("pair 9 3", COURSE, &line(9));
    check("walk 3 6", COURSE, &line(6));
    check("pair 7 9", COURSE, &line(7));
    check("walk 6 6", COURSE, &line(6));
    // Not node 0 and not node 1, though the last 16 or 32 bits are theirs.
    check("pair 65536 4294967297", COURSE, &line(65536));
    check("pair 1 4294967297", COURSE, &line(4294967297));
}

#[test]
fn thresholds_that_are_too_great() {
    for command in ["pair 1 3", "walk 1 3", "test", "hubs", "reports"] {
        for threshold in [1025u64, 2000, 65537, 4294967296, 9999999999] {
            check(
                &format!("{command} --threshold {threshold}"),
                COURSE,
                &format!("refused 14 at threshold {threshold}: a threshold is at most 1024\n"),
            );
        }
        let accepted = printed(&format!("{command} --threshold 1024"), COURSE);
        assert!(!accepted.starts_with("refused"), "{accepted}");
    }
}

#[test]
fn order_of_refusals() {
    check(
        "pair 9 8 --threshold 2000",
        "S,6,6\nL,3,3\n",
        "refused 5 at line 2: a link joins two different nodes\n",
    );
    check(
        "pair 9 8 --threshold 2000",
        COURSE,
        "refused 14 at threshold 2000: a threshold is at most 1024\n",
    );
    check(
        "pair 9 8 --threshold 5",
        COURSE,
        "refused 10 at node 9: the nodes are 0 to 5\n",
    );
}

// Files

fn out_of_place(line: usize) -> String {
    format!(
        "refused 13 at line {line}: a file is p edge n m, then m lines e a b, \
         each with a line feed; no carriage returns or leading zeros; comments begin with c\n"
    )
}

#[test]
fn lines_of_files_out_of_form() {
    for text in [
        "",
        "\n",
        "c",
        "p edge 6 0",
        "S,6,0\n",
        "p col 6 0\n",
        "e 1 2\n",
    ] {
        check("import", text, &out_of_place(1));
    }
    check("import", "c\nc\n", &out_of_place(3));
    check("import", "c\nc\nc", &out_of_place(3));
    check("import", "p edge 6 1\nx\n", &out_of_place(2));
    check("import", "p edge 6 1\ne 1 2", &out_of_place(2));
    check("import", "c\np edge 6 1\nc\ne 1  2\n", &out_of_place(4));
}

/// A comment may hold any bytes, and also spaces and carriage returns.
#[test]
fn files_that_were_kept_otherwise() {
    let file = "c x y\np edge 6 2\ne 1 2\ne 2 3\n";
    check("import", &file.replace('\n', "\r\n"), &out_of_place(2));
    check("import", &format!("\u{feff}{file}"), &out_of_place(1));
    check("import", &format!("{file}\n"), &out_of_place(5));
    check("import", &file.replace(' ', "  "), &out_of_place(2));
    check("import", &file.replace("e 2", "e  2"), &out_of_place(4));
    check(
        "import",
        &file.replace("e 2 3\n", "e 2 3\r\n"),
        &out_of_place(4),
    );
    check(
        "import",
        &file.replace("c x y\n", "c x  y\r\n"),
        "S,6,2\nL,0,1\nL,1,2\n",
    );
}

#[test]
fn files_with_a_wrong_count() {
    check("import", "c\np edge 6 1\nc\n", &out_of_place(4));
    check("import", "p edge 6 1\nc", &out_of_place(2));
    check("import", "p edge 6 0\ne 1 2\n", &out_of_place(2));
    check(
        "import",
        "p edge 6 1\ne 1 2\nc\nc\ne 2 3\nc\n",
        &out_of_place(5),
    );
    check("import", "p edge 6 1\ne 1 2\nc\nc", &out_of_place(4));
    check("import", "p edge 6 1\ne 1 2\n\n", &out_of_place(3));
}

#[test]
fn other_refusals_of_files() {
    let nodes = "refused 2 at line 3: a survey has 1 to 1024 nodes\n";
    check("import", "c\nc\np edge 1025 0\n", nodes);
    check(
        "import",
        "p edge 0 16385\n",
        "refused 2 at line 1: a survey has 1 to 1024 nodes\n",
    );
    let links = "refused 3 at line 1: a file has at most 16384 lines e a b\n";
    check("import", "p edge 2 16385\n", links);
    let node = "refused 4 at line 3: the nodes are 1 to 6\n";
    check("import", "p edge 6 1\nc\ne 0 1\n", node);
    check("import", "p edge 6 2\ne 1 6\ne 7 7\n", node);
    let equal = "refused 5 at line 3: a link joins two different nodes\n";
    check("import", "p edge 6 2\nc\ne 6 6\n", equal);
}

const NOT_TAKEN: &str =
    "not taken: the file has more than 524287 bytes (leave out comments); usage: puxerdau import < edges.col\n";

#[test]
fn long_files() {
    let file = "p edge 3 1\ne 1 3\n";
    let with_comment = |length: usize| {
        let comment = "c".repeat(length - file.len() - 1);
        format!("p edge 3 1\n{comment}\ne 1 3\n")
    };
    check("import", &with_comment(524_287), "S,3,1\nL,0,2\n");
    check("import", &with_comment(524_288), NOT_TAKEN);
    // Whatever it says.
    check("import", &"x".repeat(524_288), NOT_TAKEN);
    check("import", &"x".repeat(524_287), &out_of_place(1));
    // 262,143 lines, and half of one.
    let comments = "c\n".repeat(262_144);
    check("import", &comments[..524_287], &out_of_place(262_144));
}

#[test]
fn long_texts() {
    let rest = "L,1,2\n".repeat(100_000);
    check("check", &format!("{COURSE}{rest}"), &wrong_count(8));
    let digits = "1".repeat(600_000);
    check("check", &format!("S,6,6\nL,0,{digits}\n"), &link_line(2));
    check("check", &digits, FIRST_LINE);
}

#[test]
fn largest_surveys() {
    let links: Vec<_> = (1..1024).map(|v| (v - 1, v)).collect();
    let text = common::text_of(1024, &links);
    check("check", &text, "accepted nodes 1024 links 1023\n");
    check(
        "pair 0 1023",
        &text,
        "nodes 0 and 1023 report 1023 by low nodes\nat least 1021 and at most 1023 links are needed\n",
    );
    let every: String = (0..1024).map(|v| format!(" {v}")).collect();
    assert!(printed("walk 0 1023", &text).ends_with(&format!("\nwalk{every}\n")));
    let more = (0..16384 - 1023).map(|place| (place % 900, place % 900 + 2 + place / 900));
    let links: Vec<_> = links.into_iter().chain(more).collect();
    let text = common::text_of(1024, &links);
    check("check", &text, "accepted nodes 1024 links 16384\n");
    check("check", &format!("{text}x"), &wrong_count(16386));
}

// The page

/// What the tables behind "Words" quote, of two words or more.
enum Quoted {
    /// A whole line.
    Line(String),
    /// A part of one.
    Part(String),
    /// How a line ends whose beginning, the number and the place, is that of
    /// the row's line.
    End(String, String),
}

/// With a number for K.
fn quoted_by_page() -> Vec<Quoted> {
    let page = stored("docs/COMMANDS.md");
    let (_, tables) = page.split_once("\n## Words\n").expect("the heading");
    let rows = tables.lines().filter(|line| line.starts_with('|'));
    rows.flat_map(quoted_by_row).collect()
}

fn quoted_by_row(row: &str) -> Vec<Quoted> {
    let mut all = Vec::new();
    let mut place = String::new();
    for cell in row.split('|').map(str::trim) {
        // Every second piece stands in quotes.
        let quotes: Vec<&str> = cell.split('`').skip(1).step_by(2).collect();
        for quote in quotes.iter().filter(|quote| quote.contains(' ')) {
            let quote = quote.replace("word K", "word 1");
            if let Some(end) = quote.strip_prefix("..") {
                all.push(Quoted::End(place.clone(), String::from(end)));
            } else if cell.len() == quote.len() + 2 {
                let (front, _) = quote.split_once(':').unwrap_or_default();
                place = format!("{front}:");
                all.push(Quoted::Line(quote));
            } else {
                all.push(Quoted::Part(quote));
            }
        }
    }
    all
}

/// The lines printed for words and texts that were chosen for the page.
fn lines_for_page() -> Vec<String> {
    let fewer_links = COURSE.replace("S,6,6", "S,6,7");
    let cases = [
        ("pairs 1 3", COURSE),
        ("pair x", COURSE),
        ("test x", COURSE),
        ("walk 1", COURSE),
        ("walk 1 3", COURSE),
        ("pair 0 3", COURSE),
        ("pair 0 1", NO_LINK),
        ("pair 5 5", COURSE),
        ("pair 5 1", COURSE),
        ("pair 0 3", CHAIN),
        ("test", COURSE),
        ("test", CHAIN),
        ("test", NO_LINK),
        ("hubs", COURSE),
        ("hubs", NO_LINK),
        ("hubs --threshold 1", TWO_HUBS),
        ("check", COURSE),
        ("check", ""),
        ("check", "S,6,6\nL,0,5\nL\n"),
        ("check", "S,0,0\n"),
        ("reports", "S,129,0\n"),
        ("check", "S,2,16385\n"),
        ("reports", "S,128,2049\n"),
        ("import", "p edge 2 16385\n"),
        ("check", "S,6,6\nL,0,5\nL,6,1\n"),
        ("import", "p edge 6 6\ne 1 6\ne 7 2\n"),
        ("check", "S,6,6\nL,0,5\nL,1,1\n"),
        ("check", "S,6,6\nL,0,5\nL,5,0\n"),
        ("check", fewer_links.as_str()),
        ("pair 9 0", COURSE),
        ("import", "p edge 6 1\nx\n"),
        ("hubs --threshold 2000", COURSE),
    ];
    let printed = cases.map(|(words, text)| printed(words, text));
    let lines = printed.iter().flat_map(|lines| lines.lines());
    lines.map(String::from).collect()
}

#[test]
fn every_line_of_the_page() {
    let printed = lines_for_page();
    let (mut lines, mut parts, mut ends) = (0, 0, 0);
    for quoted in quoted_by_page() {
        match quoted {
            Quoted::Line(line) => {
                assert!(printed.contains(&line), "{line}");
                lines += 1;
            }
            Quoted::Part(part) => {
                assert!(printed.iter().any(|line| line.contains(&part)), "{part}");
                parts += 1;
            }
            Quoted::End(place, end) => {
                let fits = |line: &String| line.starts_with(&place) && line.ends_with(&end);
                assert!(printed.iter().any(fits), "{place} ..{end}");
                ends += 1;
            }
        }
    }
    assert_eq!((lines, parts, ends), (28, 6, 4));
}

/// It stands outside the tables, on two lines of the page.
#[test]
fn line_of_the_page_for_long_files() {
    let page = stored("docs/COMMANDS.md").replace('\n', " ");
    assert!(page.contains(&format!("`{}`", NOT_TAKEN.trim_end())));
}

/// The words of each usage are those of the table of commands.
#[test]
fn usages_of_the_page() {
    let page = stored("docs/COMMANDS.md");
    for (command, usage) in USAGES {
        let row = page
            .lines()
            .find_map(|line| line.strip_prefix(&format!("| `{command}` |")))
            .expect("a row");
        let mut cells = row.split('|').map(|cell| cell.trim().trim_matches('`'));
        let words = cells.next().expect("its words");
        let reads = match cells.next() {
            Some("a survey") => " < survey.txt",
            Some("a DIMACS edge file") => " < edges.col",
            Some("nothing") => "",
            other => panic!("{other:?}"),
        };
        let space = if words.is_empty() { "" } else { " " };
        assert_eq!(usage, format!("puxerdau {command}{space}{words}{reads}"));
    }
}

// The place

/// Each text that one changed, removed or added byte or a cut makes.
fn altered(text: &str) -> Vec<Vec<u8>> {
    let text = text.as_bytes();
    let mut all = Vec::new();
    for place in 0..text.len() {
        all.push(text[..place].to_vec());
        all.push([&text[..place], &text[place + 1..]].concat());
        for byte in *b"0159, \nSLcpe\xff" {
            all.push([&text[..place], &[byte], &text[place..]].concat());
            all.push([&text[..place], &[byte], &text[place + 1..]].concat());
        }
    }
    all
}

/// The line of a refusal, if the text is refused.
fn stop_of(words: &[&[u8]], text: &[u8]) -> Option<usize> {
    let printed = String::from_utf8(desk(words, text)).expect("plain bytes");
    let (_, behind) = printed
        .strip_prefix("refused ")?
        .split_once(" at line ")
        .expect("a line");
    let (line, _) = behind.split_once(':').expect("a colon");
    Some(line.parse().expect("a number"))
}

/// What follows the line at which reading stopped does not matter; without
/// this line, reading stops at the end that the text then has, or nowhere.
#[test]
fn reading_stops_at_the_line() {
    let mut refused = 0;
    for (command, text) in [("check", COURSE), ("import", COURSE_FILE)] {
        let words: [&[u8]; 1] = [command.as_bytes()];
        for text in altered(text) {
            let Some(line) = stop_of(&words, &text) else {
                continue;
            };
            let lines: Vec<&[u8]> = text.split_inclusive(|&byte| byte == b'\n').collect();
            let with_line = lines[..lines.len().min(line)].concat();
            assert_eq!(desk(&words, &with_line), desk(&words, &text));
            let before = lines[..line - 1].concat();
            let stop = stop_of(&words, &before);
            assert!(stop.is_none_or(|stop| stop == line), "{stop:?} {line}");
            refused += 1;
        }
    }
    assert!(refused > 3000, "{refused}");
}

// The command

/// Words of any bytes come through as they are.
#[test]
fn command() {
    use std::ffi::OsStr;
    use std::os::unix::ffi::OsStrExt;
    let cases: [&[&[u8]]; 5] = [
        &[],
        &[b"walk", b"1", b"3"],
        &[b"pair", b"1", b"\xff\xfe"],
        &[b"\xc3"],
        &[b"pair", b"", b"3\n"],
    ];
    for words in cases {
        let mut child = Command::new(env!("CARGO_BIN_EXE_reference"))
            .arg("desk")
            .args(words.iter().map(|word| OsStr::from_bytes(word)))
            .stdin(Stdio::piped())
            .stdout(Stdio::piped())
            .spawn()
            .expect("the program");
        let mut input = child.stdin.take().expect("its input");
        input.write_all(COURSE.as_bytes()).expect("a text");
        drop(input);
        let output = child.wait_with_output().expect("its output");
        assert!(output.status.success());
        assert_eq!(output.stdout, desk(words, COURSE.as_bytes()));
    }
}

/// A directory cannot be read; it counts as an empty text.
#[test]
fn input_that_cannot_be_read() {
    let output = Command::new(env!("CARGO_BIN_EXE_reference"))
        .args(["desk", "check"])
        .stdin(std::fs::File::open("/").expect("a directory"))
        .output()
        .expect("the program");
    assert!(output.status.success());
    assert_eq!(output.stdout, FIRST_LINE.as_bytes());
}
