//! Acceptance of lists: refusal numbers, their order, and what is altered.

mod common;

use common::{Built, Random, Sample, COURSE, REFUSED_THRESHOLDS};
use reference::{ask, build, export, test, walk, write, Route, NONE};

/// The refusals of build, walk, test, write and export.
type Refusals = [u8; 5];

/// The refusals for these lists, with everything else long enough. 0 stands
/// for success. Checks that refused operations leave their lists as the rules
/// say.
fn refusals(n: usize, threshold: usize, starts: &[u32], neighbours: &[u16]) -> Refusals {
    let mut tables = vec![vec![5u16; 2000]; 3];
    let mut hubs = vec![5u16; 40];
    let [full, low, report] = &mut tables[..] else {
        unreachable!()
    };
    let built = build(
        n, threshold, starts, neighbours, full, low, report, &mut hubs,
    );
    if built.is_err() {
        assert!(tables
            .iter()
            .flatten()
            .chain(&hubs)
            .all(|&entry| entry == 5));
        // A report of none for every pair, so that a walk is not refused 11.
        tables[2].fill(NONE);
    }
    let mut list = [5; 10];
    let [full, low, report] = &tables[..] else {
        unreachable!()
    };
    let walked = walk(
        n, threshold, starts, neighbours, full, low, report, 0, 1, &mut list,
    );
    if walked.is_err() {
        assert_eq!(list, [NONE; 10]);
    }
    let tested = test(n, threshold, starts, neighbours);
    let mut buffer = [5; 200];
    let written = write(n, starts, neighbours, &mut buffer);
    if written.is_err() {
        assert_eq!(buffer, [5; 200]);
    }
    let mut buffer = [5; 200];
    let exported = export(n, starts, neighbours, &mut buffer);
    if exported.is_err() {
        assert_eq!(buffer, [5; 200]);
    }
    [
        built.err().unwrap_or(0),
        walked.err().unwrap_or(0),
        tested.err().unwrap_or(0),
        written.err().unwrap_or(0),
        exported.err().unwrap_or(0),
    ]
}

/// The same refusal with every threshold, but that one above 1,024 is refused
/// straight after 2 by the calls that take one.
#[track_caller]
fn check_thresholds(refusal: u8, n: usize, refusals: impl Fn(usize) -> Refusals) {
    for threshold in common::thresholds(n) {
        assert_eq!(refusals(threshold), [refusal; 5], "{threshold}");
    }
    let first = or_14(refusal);
    for threshold in REFUSED_THRESHOLDS {
        assert_eq!(refusals(threshold), [first, first, first, refusal, refusal]);
    }
}

/// The refusal with a threshold above 1,024, where it is otherwise this one.
fn or_14(refusal: u8) -> u8 {
    if refusal == 2 {
        2
    } else {
        14
    }
}

#[track_caller]
fn check(refusal: u8, n: usize, starts: &[u32], neighbours: &[u16]) {
    check_thresholds(refusal, n, |threshold| {
        refusals(n, threshold, starts, neighbours)
    });
}

/// The path 0-1-2.
const STARTS: [u32; 4] = [0, 1, 3, 4];
const NEIGHBOURS: [u16; 4] = [1, 0, 2, 1];

#[test]
fn accepted() {
    check(0, 3, &STARTS, &NEIGHBOURS);
    check(0, 3, &[0, 1, 3, 4, 0, 77], &NEIGHBOURS);
    check(0, 3, &STARTS, &[1, 0, 2, 1, 1, 9, 65535]);
    check(0, 3, &[0, 0, 0, 0], &[]);
    check(0, 3, &[0, 0, 0, 0], &[7, 7]);
    check(0, 2, &[0, 1, 2], &[1, 0]);
    check_larger(0, &common::blocks(20, 1));
}

#[test]
fn node_count() {
    for n in [0, 1025, 65536, 1 << 32, usize::MAX / 2, usize::MAX] {
        check(2, n, &STARTS, &NEIGHBOURS);
        check(2, n, &[], &[]);
    }
}

#[test]
fn starts_too_short() {
    check(8, 3, &[0, 1, 3], &NEIGHBOURS);
    check(8, 3, &[], &NEIGHBOURS);
    check(8, 3, &[9, 1, 3], &[]);
    check(8, 1024, &[0; 1024], &[]);
    check(8, 1024, &[], &[]);
}

#[test]
fn starts_not_a_survey() {
    // Falling.
    check(9, 3, &[0, 3, 1, 4], &NEIGHBOURS);
    check(9, 3, &[0, 1, 5, 4], &NEIGHBOURS);
    check(9, 3, &[0, u32::MAX, 3, 4], &NEIGHBOURS);
    // The first is not 0.
    check(9, 3, &[1, 1, 3, 4], &NEIGHBOURS);
    check(9, 3, &[2, 2, 2, 2], &NEIGHBOURS);
    check(9, 3, &[4, 4, 4, 4], &NEIGHBOURS);
    // The last is odd.
    check(9, 3, &[0, 1, 3, 3], &NEIGHBOURS);
    check(9, 3, &[0, 0, 0, 1], &NEIGHBOURS);
    check(9, 1, &[0, 1], &[0, 0]);
    // The neighbour list is shorter than the last start.
    check(9, 3, &STARTS, &NEIGHBOURS[..3]);
    check(9, 3, &STARTS, &[]);
    check(9, 3, &[0, 0, 0, u32::MAX], &NEIGHBOURS);
    check(9, 3, &[0, 0, 0, u32::MAX - 1], &NEIGHBOURS);
}

#[test]
fn neighbours_not_a_survey() {
    // A node of n or more.
    check(9, 3, &STARTS, &[1, 0, 3, 1]);
    check(9, 3, &STARTS, &[1, 0, 65535, 1]);
    check(9, 2, &[0, 1, 2], &[1, 2]);
    check(9, 1, &[0, 2], &[1, 2]);
    // A node at itself.
    check(9, 3, &[0, 0, 2, 2], &[0, 1]);
    check(9, 3, &[0, 2, 3, 4], &[0, 1, 0, 2]);
    check(9, 2, &[0, 1, 2], &[0, 1]);
    // Unsorted.
    check(9, 3, &STARTS, &[1, 2, 0, 1]);
    check(9, 3, &[0, 2, 4, 6], &[2, 1, 0, 2, 0, 1]);
    // Repeated.
    check(9, 2, &[0, 2, 4], &[1, 1, 0, 0]);
    check(9, 3, &[0, 2, 4, 4], &[1, 1, 0, 0]);
    // One-sided.
    check(9, 3, &[0, 1, 2, 2], &[1, 2]);
    check(9, 3, &[0, 2, 2, 2], &[1, 2]);
    check(9, 4, &[0, 1, 1, 2, 2], &[1, 3]);
    check(9, 3, &[0, 2, 3, 4], &[1, 2, 2, 0]);
}

/// The refusals for a larger graph. Checks that a refused build alters
/// nothing.
fn larger_refusals(sample: &Sample, threshold: usize) -> Refusals {
    let n = sample.n;
    let (starts, neighbours) = sample.lists();
    let [mut full, mut low, mut report] = [(); 3].map(|()| vec![5; n * n]);
    let mut hubs = vec![5; n];
    let built = build(
        n,
        threshold,
        &starts,
        &neighbours,
        &mut full,
        &mut low,
        &mut report,
        &mut hubs,
    );
    if built.is_err() {
        let lists = [&full, &low, &report, &hubs];
        assert!(lists.into_iter().flatten().all(|&entry| entry == 5));
    }
    report.fill(NONE);
    let walked = walk(
        n,
        threshold,
        &starts,
        &neighbours,
        &full,
        &low,
        &report,
        0,
        1,
        &mut [],
    );
    let tested = test(n, threshold, &starts, &neighbours);
    let written = write(n, &starts, &neighbours, &mut vec![5; 300_000]);
    let exported = export(n, &starts, &neighbours, &mut vec![5; 300_000]);
    [
        built.err().unwrap_or(0),
        walked.err().unwrap_or(0),
        tested.err().unwrap_or(0),
        written.err().unwrap_or(0),
        exported.err().unwrap_or(0),
    ]
}

#[track_caller]
fn check_larger(refusal: u8, sample: &Sample) {
    check_thresholds(refusal, sample.n, |threshold| {
        larger_refusals(sample, threshold)
    });
}

/// More than 16,384 links in lists that are otherwise a survey's.
#[test]
fn too_many_links() {
    // 182 nodes, all linked, are 16,471 links; 181 nodes are 16,290.
    check_larger(0, &common::blocks(181, 1));
    check_larger(9, &common::blocks(182, 1));
    // Node 181 has 94 links more: exactly 16,384, and then one more.
    let mut sample = Sample::new("most links", 300);
    for (a, b) in common::blocks(181, 1).links() {
        sample.link(a, b);
    }
    for b in 0..94 {
        sample.link(181, b);
    }
    assert_eq!(sample.links().len(), 16384);
    check_larger(0, &sample);
    sample.link(181, 94);
    check_larger(9, &sample);
}

/// The refusal of a build from the neighbours of the path 0-1-2 into lists of
/// these lengths.
fn build_with_lengths(n: usize, threshold: usize, starts: &[u32], lengths: [usize; 4]) -> u8 {
    let [mut full, mut low, mut report, mut hubs] = lengths.map(|length| vec![5u16; length]);
    let built = build(
        n,
        threshold,
        starts,
        &NEIGHBOURS,
        &mut full,
        &mut low,
        &mut report,
        &mut hubs,
    );
    if built.is_err() {
        let lists = [&full, &low, &report, &hubs];
        assert!(lists.into_iter().flatten().all(|&entry| entry == 5));
    }
    built.err().unwrap_or(0)
}

/// The refusal with every threshold; 14 comes straight after 2.
#[track_caller]
fn check_build(refusal: u8, n: usize, starts: &[u32], lengths: [usize; 4]) {
    for threshold in common::thresholds(n) {
        let found = build_with_lengths(n, threshold, starts, lengths);
        assert_eq!(found, refusal, "{threshold}");
    }
    for threshold in REFUSED_THRESHOLDS {
        let found = build_with_lengths(n, threshold, starts, lengths);
        assert_eq!(found, or_14(refusal), "{threshold}");
    }
}

#[test]
fn build_refusal_order() {
    let broken = [0, 3, 1, 4];
    check_build(0, 3, &STARTS, [9, 9, 9, 3]);
    for place in 0..4 {
        let mut lengths = [9, 9, 9, 3];
        lengths[place] -= 1;
        check_build(8, 3, &STARTS, lengths);
        check_build(8, 3, &broken, lengths);
    }
    check_build(9, 3, &broken, [9, 9, 9, 3]);
    check_build(8, 3, &broken[..3], [9, 9, 9, 3]);
    check_build(8, 3, &STARTS, [0; 4]);
    for n in [0, 1025, usize::MAX] {
        check_build(2, n, &[], [0; 4]);
    }
}

#[test]
fn build_keeps_further_entries() {
    for threshold in common::thresholds(6) {
        let exact = Built::of_sample(&common::course(), threshold);
        let mut longer = exact.clone();
        for list in [
            &mut longer.full,
            &mut longer.low,
            &mut longer.report,
            &mut longer.hubs,
        ] {
            list.fill(5);
            list.extend([5; 4]);
        }
        assert_eq!(longer.build(), Ok(exact.hub_count));
        let further = |list: &[u16]| [list, &[5; 4]].concat();
        assert_eq!(longer.full, further(&exact.full));
        assert_eq!(longer.low, further(&exact.low));
        assert_eq!(longer.report, further(&exact.report));
        assert_eq!(longer.hubs, further(&exact.hubs));
        // Asking takes longer tables too.
        assert_eq!(longer.ask(1, 3), exact.ask(1, 3));
    }
}

#[test]
fn ask_refusal_order() {
    let built = Built::of_text(COURSE);
    let (full, low, report) = (&built.full, &built.low, &built.report);
    for n in [0, 1025, usize::MAX] {
        assert_eq!(ask(n, &[], &[], &[], 9, 9), Err(2));
    }
    assert_eq!(ask(6, &full[1..], low, report, 9, 9), Err(8));
    assert_eq!(ask(6, full, &low[1..], report, 9, 9), Err(8));
    assert_eq!(ask(6, full, low, &report[1..], 9, 9), Err(8));
    assert_eq!(ask(1024, full, low, report, 0, 0), Err(8));
    for (a, b) in [
        (6, 0),
        (0, 6),
        (6, 6),
        (usize::MAX, 0),
        (0, usize::MAX),
        (65536, 65536),
    ] {
        assert_eq!(ask(6, full, low, report, a, b), Err(10));
    }
    let threes = vec![3; 36];
    assert_eq!(ask(6, full, low, &threes, 3, 3), Err(11));
    assert_eq!(ask(6, full, low, &threes, 1, 3), Err(11));
}

/// The refusal of a walk; the list must be all none when refused. With a
/// threshold above 1,024 the refusal is 14, if it is not 2.
fn walk_refusal(built: &Built, a: usize, b: usize, length: usize) -> u8 {
    let mut list = vec![5; length];
    let walked = built.walk(a, b, &mut list);
    if walked.is_err() || walked.unwrap().route == Route::NoRoute {
        assert_eq!(list, vec![NONE; length]);
    }
    let refusal = walked.err().unwrap_or(0);
    for threshold in REFUSED_THRESHOLDS {
        let built = built.given(threshold);
        built.check_refused_walk(or_14(refusal), (a, b));
    }
    refusal
}

#[test]
fn walk_refusal_order() {
    // From the last refusal to the first, each on top of the ones before.
    let mut built = Built::of_text(COURSE);
    assert_eq!(walk_refusal(&built, 1, 3, 5), 0);
    assert_eq!(walk_refusal(&built, 1, 3, 4), 8);
    assert_eq!(walk_refusal(&built, 5, 5, 1), 0);
    assert_eq!(walk_refusal(&built, 5, 5, 0), 8);
    built.report[6 + 3] = 3;
    assert_eq!(walk_refusal(&built, 1, 3, 2), 11);
    assert_eq!(walk_refusal(&built, 6, 3, 2), 10);
    assert_eq!(walk_refusal(&built, 1, usize::MAX, 2), 10);
    built.neighbours[0] = 0;
    assert_eq!(walk_refusal(&built, 6, 3, 2), 9);
    for place in 0..4 {
        let mut shorter = built.clone();
        match place {
            0 => shorter.full.truncate(35),
            1 => shorter.low.truncate(35),
            2 => shorter.report.truncate(35),
            _ => shorter.starts.truncate(6),
        }
        assert_eq!(walk_refusal(&shorter, 6, 3, 2), 8);
        shorter.n = 0;
        assert_eq!(walk_refusal(&shorter, 6, 3, 2), 2);
        shorter.n = usize::MAX;
        assert_eq!(walk_refusal(&shorter, 6, 3, 2), 2);
    }
}

type Writing = fn(usize, &[u32], &[u16], &mut [u8]) -> Result<usize, u8>;

#[test]
fn write_and_export_refusal_order() {
    check_writing(write, "S,3,2\nL,0,1\nL,1,2\n");
    check_writing(export, "p edge 3 2\ne 1 2\ne 2 3\n");
}

fn check_writing(writing: Writing, text: &str) {
    let mut buffer = [5; 40];
    let written = |starts: &[u32], buffer: &mut [u8]| writing(3, starts, &NEIGHBOURS, buffer);
    assert_eq!(written(&STARTS, &mut buffer[..text.len()]), Ok(text.len()));
    assert_eq!(&buffer[..text.len()], text.as_bytes());
    assert!(buffer[text.len()..].iter().all(|&byte| byte == 5));
    for length in 0..text.len() {
        let mut short = vec![5; length];
        assert_eq!(written(&STARTS, &mut short), Err(12));
        assert_eq!(short, vec![5; length]);
    }
    assert_eq!(written(&[0, 3, 1, 4], &mut []), Err(9));
    assert_eq!(written(&STARTS[..3], &mut []), Err(8));
    assert_eq!(writing(0, &[], &[], &mut []), Err(2));
}

fn random_list(random: &mut Random, length: usize, limit: usize) -> Vec<u16> {
    (0..length).map(|_| random.below(limit) as u16).collect()
}

/// A list of starts, often one that is never falling from 0.
fn random_starts(random: &mut Random, limit: usize) -> Vec<u32> {
    let length = random.below(9);
    let mut starts = random_list(random, length, limit);
    if random.percent(80) {
        starts.push(0);
        starts.sort();
    }
    starts.into_iter().map(u32::from).collect()
}

/// Calls every operation with random lists; whether the lists are accepted.
fn check_random_call(random: &mut Random, n: usize, limit: usize) -> bool {
    let starts = random_starts(random, limit);
    let neighbours = random_list(random, 8, limit);
    let [mut full, mut low, mut report, mut hubs] =
        [26, 25, 26, 6].map(|length| random_list(random, length, limit));
    let (a, b) = (random.below(6), random.below(6));
    let asked = ask(n, &full, &low, &report, a, b);
    let threshold = [0, 1, 2, 3, 6, 1024, 1025, usize::MAX][random.below(8)];
    let mut nodes = vec![5; random.below(9)];
    let walked = walk(
        n,
        threshold,
        &starts,
        &neighbours,
        &full,
        &low,
        &report,
        a,
        b,
        &mut nodes,
    );
    assert!(walked.is_ok() || nodes.iter().all(|&entry| entry == NONE));
    assert!(walked.is_err() || walked == asked);
    let old = [full.clone(), low.clone(), report.clone(), hubs.clone()];
    let built = build(
        n,
        threshold,
        &starts,
        &neighbours,
        &mut full,
        &mut low,
        &mut report,
        &mut hubs,
    );
    assert!(built.is_ok() || [full, low, report, hubs] == old);
    let tested = test(n, threshold, &starts, &neighbours);
    assert_eq!(tested.is_ok(), built.is_ok());
    let refused_14 = (1..=1024).contains(&n) && threshold > 1024;
    let refusals = [built.err(), walked.err(), tested.err()];
    assert_eq!(refusals.map(|refusal| refusal == Some(14)), [refused_14; 3]);
    let mut buffer = [5; 99];
    let written = write(n, &starts, &neighbours, &mut buffer);
    assert_eq!(written.is_ok() && threshold <= 1024, built.is_ok());
    assert!(written.is_ok() || buffer == [5; 99]);
    let mut buffer = [5; 99];
    let exported = export(n, &starts, &neighbours, &mut buffer);
    assert_eq!(exported.is_ok(), written.is_ok());
    assert!(exported.is_ok() || buffer == [5; 99]);
    built.is_ok()
}

/// Any arguments at all: nothing panics, refused lists are as stated.
#[test]
fn random_arguments() {
    let mut random = Random::new(15);
    let mut accepted = 0;
    for _ in 0..20_000 {
        let n = [0, 1, 2, 3, 4, 5, 1024, 1025, usize::MAX][random.below(9)];
        let limit = [2, 3, 5, 65536][random.below(4)];
        accepted += usize::from(check_random_call(&mut random, n, limit));
    }
    println!("{accepted} accepted");
    assert!(accepted > 100);
}
