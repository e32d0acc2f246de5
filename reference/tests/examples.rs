//! Every example of the rules, and the stored output.

mod common;

use common::{from_links, Built, COURSE, SENT_BACK, SEPARATE_NODE};
use reference::{read, reports, threshold, write, Answer, Route, Tested, Verdict, NONE};
use std::io::Write;
use std::process::{Command, Stdio};

const COURSE_LISTING: &str = "R,6,1\nP,0,1,2,0\nP,0,2,2,0\nP,0,3,2,0\nP,0,4,2,0\n\
    P,0,5,1,link\nP,1,2,1,link\nP,1,3,4,0\nP,1,4,4,0\nP,1,5,1,link\nP,2,3,4,0\nP,2,4,4,0\n\
    P,2,5,1,link\nP,3,4,4,0\nP,3,5,1,link\nP,4,5,1,link\n";

fn refusal_of(text: &str) -> u8 {
    read(text.as_bytes(), &mut [9; 1025], &mut [9; 32768]).unwrap_err()
}

fn tested(text: &str) -> Tested {
    Built::of_text(text).test().unwrap()
}

fn walk_nodes(built: &Built, a: usize, b: usize) -> Vec<u16> {
    let mut list = vec![9; 20];
    let answer = built.walk(a, b, &mut list).unwrap();
    let (nodes, rest) = list.split_at(answer.report as usize + 1);
    assert!(rest.iter().all(|&entry| entry == NONE));
    nodes.to_vec()
}

#[test]
fn thresholds() {
    assert_eq!(threshold(1), Ok(1));
    assert_eq!(threshold(6), Ok(5));
    assert_eq!(threshold(100), Ok(27));
    assert_eq!(threshold(1023), Ok(102));
    assert_eq!(threshold(1024), Ok(107));
    for n in [0, 1025, 65537, usize::MAX] {
        assert_eq!(threshold(n), Err(2));
    }
}

#[test]
fn thresholds_are_smallest() {
    for n in 1..=1024usize {
        let s = threshold(n).unwrap();
        let bits = n.ilog2() as usize + 1;
        assert!(s * s >= n * bits && (s - 1) * (s - 1) < n * bits, "{n}");
    }
}

#[test]
fn course_listing() {
    assert_eq!(
        String::from_utf8(reports(COURSE.as_bytes())).unwrap(),
        COURSE_LISTING
    );
}

#[test]
fn course_high_node_and_hub() {
    let built = Built::of_text(COURSE);
    let degrees: Vec<u32> = built.starts[..7]
        .windows(2)
        .map(|pair| pair[1] - pair[0])
        .collect();
    let s = threshold(6).unwrap() as u32;
    let high: Vec<usize> = (0..6).filter(|&v| degrees[v] >= s).collect();
    assert_eq!(high, [5]);
    assert_eq!(built.hub_count, 1);
    assert_eq!(built.hubs, [0, NONE, NONE, NONE, NONE, NONE]);
}

#[test]
fn course_reports_and_walks() {
    let built = Built::of_text(COURSE);
    let through = |report| Answer {
        report,
        route: Route::Through(0),
    };
    assert_eq!(built.ask(1, 3), Ok(through(4)));
    assert_eq!(walk_nodes(&built, 1, 3), [1, 5, 0, 5, 3]);
    let itself = Answer {
        report: 0,
        route: Route::Itself,
    };
    assert_eq!(built.ask(5, 5), Ok(itself));
    assert_eq!(built.full[5] + built.full[5], 2);
    assert_eq!(walk_nodes(&built, 5, 5), [5]);
    let link = Answer {
        report: 1,
        route: Route::Link,
    };
    for (a, b) in [(0, 5), (1, 2), (1, 5), (2, 5), (3, 5), (4, 5)] {
        assert_eq!((built.ask(a, b), built.ask(b, a)), (Ok(link), Ok(link)));
        assert_eq!(walk_nodes(&built, a, b), [a as u16, b as u16]);
        assert_eq!(walk_nodes(&built, b, a), [b as u16, a as u16]);
    }
}

#[test]
fn course_errors() {
    let built = Built::of_text(COURSE);
    assert_eq!(walk_nodes(&built, 0, 3), [0, 5, 3]);
    assert_eq!(walk_nodes(&built, 5, 3), [5, 3]);
    let sent_back = Built::of_text(SENT_BACK);
    assert_eq!(walk_nodes(&sent_back, 0, 2), [0, 3, 5, 2]);
    assert_eq!(walk_nodes(&sent_back, 3, 2), [3, 0, 3, 5, 2]);
    let mut low = vec![NONE; 36];
    for v in 0..5 {
        low[v * 6 + v] = 0;
    }
    low[6 + 2] = 1;
    low[2 * 6 + 1] = 1;
    assert_eq!(built.low, low);
    // With a seventh node apart, every hub sum with it holds a none.
    let separate = Built::of_text(SEPARATE_NODE);
    assert_eq!(separate.hub_count, 1);
    for v in 0..6 {
        let expected = Answer {
            report: NONE,
            route: Route::NoRoute,
        };
        assert_eq!(separate.ask(v, 6), Ok(expected));
        assert_eq!(separate.ask(6, v), Ok(expected));
    }
}

#[test]
fn tests_of_two_or_four() {
    let short_one = Tested {
        verdict: Verdict::Short,
        searches: 1,
    };
    assert_eq!(tested("S,1,0\n"), short_one);
    let chain = tested("S,5,4\nL,0,1\nL,1,2\nL,2,3\nL,3,4\n");
    assert_eq!(chain.verdict, Verdict::Long);
    assert_eq!(chain.searches, 2);
    let text = "S,5,5\nL,0,1\nL,0,2\nL,1,2\nL,1,3\nL,2,4\n";
    assert_eq!(
        tested(text),
        Tested {
            verdict: Verdict::Short,
            searches: 3
        }
    );
    let links = [(0, 1), (0, 2), (1, 2), (1, 3), (2, 4)];
    let sample = from_links("five", 5, &links);
    assert_eq!(common::distances(&sample, &[true; 5])[3][4], 3);
    let parted = Tested {
        verdict: Verdict::Parted,
        searches: 1,
    };
    assert_eq!(tested("S,2,0\n"), parted);
}

#[test]
fn refused_and_without_route() {
    assert_eq!(refusal_of("S,1025,0\n"), 2);
    assert_eq!(refusal_of("S,2,16385\n"), 3);
    let built = Built::of_text("S,2,0\n");
    let expected = Answer {
        report: NONE,
        route: Route::NoRoute,
    };
    assert_eq!(built.ask(0, 1), Ok(expected));
    let mut list = [5; 3];
    assert_eq!(built.walk(0, 1, &mut list), Ok(expected));
    assert_eq!(list, [NONE; 3]);
    assert_eq!(built.walk(0, 1, &mut []), Ok(expected));
}

#[test]
fn limits_of_reports() {
    let output = |text: &str| String::from_utf8(reports(text.as_bytes())).unwrap();
    assert_eq!(output("S,1,0\n"), "R,1,0\n");
    assert_eq!(output("S,2,0\n"), "R,2,0\nP,0,1,-,-\n");
    assert_eq!(output("S,128,0\n").lines().count(), 1 + 128 * 127 / 2);
    for (text, expected) in [
        ("S,129,0\n", "X,2\n"),
        ("S,129,2049\n", "X,2\n"),
        ("S,1025,0\n", "X,2\n"),
        ("S,0,0\n", "X,2\n"),
        ("S,128,2049\n", "X,3\n"),
        ("S,2,16385\n", "X,3\n"),
        ("S,128,2049\nL,0,0\n", "X,3\n"),
        ("S,128,2048\n", "X,7\n"),
        ("S,129,0", "X,1\n"),
        ("", "X,1\n"),
        ("S,2,1\nL,0,2\n", "X,4\n"),
        ("S,2,1\nL,0,0\n", "X,5\n"),
        ("S,2,2\nL,0,1\nL,1,0\n", "X,6\n"),
        ("S,2,1\nL,0,1\n\n", "X,7\n"),
    ] {
        assert_eq!(output(text), expected, "{text:?}");
    }
}

#[test]
fn written_back_in_order() {
    let built = Built::of_text("S,6,6\nL,2,1\nL,5,4\nL,3,5\nL,5,0\nL,2,5\nL,5,1\n");
    let mut buffer = [0; 100];
    let length = write(built.n, &built.starts, &built.neighbours, &mut buffer).unwrap();
    let expected = "S,6,6\nL,0,5\nL,1,2\nL,1,5\nL,2,5\nL,3,5\nL,4,5\n";
    assert_eq!(&buffer[..length], expected.as_bytes());
}

fn run(argument: &str, input: &[u8]) -> Vec<u8> {
    let mut program = Command::new(env!("CARGO_BIN_EXE_reference"))
        .arg(argument)
        .stdin(Stdio::piped())
        .stdout(Stdio::piped())
        .spawn()
        .unwrap();
    // `examples` does not read its input, so writing to it may fail.
    let _ = program.stdin.take().unwrap().write_all(input);
    let output = program.wait_with_output().unwrap();
    assert!(output.status.success());
    output.stdout
}

#[test]
fn stored_examples() {
    let stored = include_bytes!("../stored/examples.txt");
    assert_eq!(run("examples", b""), stored);
}

#[test]
fn program_reports() {
    assert_eq!(run("reports", COURSE.as_bytes()), COURSE_LISTING.as_bytes());
    assert_eq!(run("reports", b"S,129,0\n"), b"X,2\n");
    assert_eq!(run("reports", b"\xff\x00"), b"X,1\n");
}
