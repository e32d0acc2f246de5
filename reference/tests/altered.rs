//! Altered tables, walked with any threshold: nothing panics, and a walk
//! given out is a chain.

mod common;

use common::{
    expected_ask, expected_low_nodes, expected_walk, is_chain, Built, Random, Sample,
    REFUSED_THRESHOLDS,
};
use reference::{Route, NONE};

/// How often each outcome came up.
#[derive(Default, Debug)]
struct Seen {
    written: usize,
    no_route: usize,
    no_attaining_route: usize,
    failed_walk: usize,
    written_link: usize,
    failed_link: usize,
    refused_threshold: usize,
}

/// A value near the old one or at an edge of the range.
fn altered_entry(random: &mut Random, old: u16, n: usize) -> u16 {
    match random.below(8) {
        0 => NONE,
        1 => NONE - 1,
        2 => old.wrapping_add(1),
        3 => old.wrapping_sub(1),
        4 => random.below(4) as u16,
        5 => random.below(n + 2) as u16,
        6 => random.next() as u16,
        _ => 0,
    }
}

fn alter(random: &mut Random, built: &mut Built) {
    let n = built.n;
    for _ in 0..1 + random.below(2 * n) {
        let place = random.below(n * n);
        let table = match random.below(3) {
            0 => &mut built.full,
            1 => &mut built.low,
            _ => &mut built.report,
        };
        table[place] = altered_entry(random, table[place], n);
    }
}

/// Puts a report in place that some route attains, so that the walk itself
/// is what may fail.
fn attain(random: &mut Random, built: &mut Built, a: usize, b: usize) {
    let n = built.n;
    let h = random.below(n);
    let sum = built.full[h * n + a].saturating_add(built.full[h * n + b]);
    built.report[a * n + b] = match random.below(5) {
        0 => 1,
        1 | 2 => built.low[a * n + b],
        _ => sum,
    };
}

/// The survey's tables built with some threshold, walked with some other or
/// the same one; some of these are refused.
fn built_with_any(random: &mut Random, sample: &Sample) -> Built {
    let mut thresholds = common::thresholds(sample.n);
    let built = Built::of_sample(sample, thresholds[random.below(thresholds.len())]);
    thresholds.extend(REFUSED_THRESHOLDS);
    built.given(thresholds[random.below(thresholds.len())])
}

/// Asks and walks one pair, and compares with the second statement.
fn check_pair(sample: &Sample, built: &Built, (a, b): (usize, usize), seen: &mut Seen) {
    let asked = built.ask(a, b).map(|answer| (answer.report, answer.route));
    assert_eq!(asked, expected_ask(built, a, b), "{}", sample.name);
    if REFUSED_THRESHOLDS.contains(&built.threshold) {
        built.check_refused_walk(14, (a, b));
        seen.refused_threshold += 1;
        return;
    }
    let Ok((report, route)) = asked else {
        built.check_refused_walk(11, (a, b));
        seen.no_attaining_route += 1;
        return;
    };
    let low_nodes = expected_low_nodes(sample, built.threshold);
    let nodes = expected_walk(sample, built, &low_nodes, route, a, b);
    let by_link = usize::from(route == Route::Link);
    let Some(nodes) = nodes else {
        built.check_refused_walk(11, (a, b));
        seen.failed_walk += 1;
        seen.failed_link += by_link;
        return;
    };
    let mut list = vec![3; 2 * built.n + 3];
    let walked = built.walk(a, b, &mut list);
    assert_eq!(walked.map(|answer| (answer.report, answer.route)), asked);
    let (written, rest) = list.split_at(nodes.len());
    assert!(rest.iter().all(|&entry| entry == NONE));
    let written_nodes: Vec<usize> = written.iter().map(|&v| v as usize).collect();
    assert_eq!(written_nodes, nodes);
    if route == Route::NoRoute {
        seen.no_route += 1;
        return;
    }
    assert!(is_chain(sample, written, a, b, report), "{}", sample.name);
    check_short_list(built, a, b, report);
    seen.written += 1;
    seen.written_link += by_link;
}

fn check_short_list(built: &Built, a: usize, b: usize, report: u16) {
    let mut short = vec![3; report as usize];
    assert_eq!(built.walk(a, b, &mut short), Err(8));
    assert!(short.iter().all(|&entry| entry == NONE));
}

#[test]
fn altered_tables() {
    let mut random = Random::new(8);
    let mut seen = Seen::default();
    let mut samples = common::small_samples(9);
    samples.retain(|sample| sample.n <= 24);
    for sample in &samples {
        for _ in 0..30 {
            let mut altered = built_with_any(&mut random, sample);
            alter(&mut random, &mut altered);
            for _ in 0..10 {
                let (a, b) = (random.below(sample.n), random.below(sample.n));
                if random.percent(50) {
                    attain(&mut random, &mut altered, a, b);
                }
                check_pair(sample, &altered, (a, b), &mut seen);
            }
        }
    }
    println!("{seen:?}");
    assert!(seen.written > 10_000 && seen.no_route > 1000);
    assert!(seen.no_attaining_route > 1000 && seen.failed_walk > 1000);
    assert!(seen.written_link > 1000 && seen.failed_link > 1000);
    assert!(seen.refused_threshold > 1000);
}

/// Tables that hold nothing but random values.
#[test]
fn random_tables() {
    let mut random = Random::new(10);
    let mut seen = Seen::default();
    for sample in common::small_samples(11)
        .iter()
        .filter(|sample| sample.n <= 16)
    {
        for _ in 0..20 {
            let mut built = built_with_any(&mut random, sample);
            let limit = [2, 3, 5, 65536][random.below(4)];
            for table in [&mut built.full, &mut built.low, &mut built.report] {
                table.fill_with(|| random.below(limit) as u16);
            }
            for pair in common::pairs(sample.n) {
                check_pair(sample, &built, pair, &mut seen);
            }
        }
    }
    println!("{seen:?}");
    assert!(seen.written > 1000 && seen.failed_walk > 1000);
}

/// Particular alterations of the course survey's tables.
#[test]
fn course_survey_altered() {
    let built = Built::of_text(common::COURSE);
    let outcome = |built: &Built, a, b| {
        let walked = built.walk(a, b, &mut [3; 9]);
        (
            built.ask(a, b).map(|answer| answer.route),
            walked.map(|answer| answer.report),
        )
    };
    // Another report at a node itself.
    let mut altered = built.clone();
    altered.report[0] = NONE;
    assert_eq!(outcome(&altered, 0, 0), (Err(11), Err(11)));
    // A none in Report is no route although a hub joins the pair.
    altered.report[6 + 3] = NONE;
    assert_eq!(outcome(&altered, 1, 3), (Ok(Route::NoRoute), Ok(NONE)));
    // A report of 0 between two nodes is attained, but the walk is not there.
    altered.report[1] = 0;
    altered.low[1] = 0;
    assert_eq!(outcome(&altered, 0, 1), (Ok(Route::Low), Err(11)));
    // Low from a high node: the route holds, and the steps are 5, 1, 2.
    altered.report[5 * 6 + 2] = 2;
    altered.low[5 * 6 + 2] = 2;
    assert_eq!(outcome(&altered, 5, 2), (Ok(Route::Low), Ok(2)));
    // Low to a high node: from 2 no low neighbour leads on.
    altered.report[6 + 5] = 2;
    altered.low[6 + 5] = 2;
    altered.low[2 * 6 + 5] = 1;
    altered.low[35] = 0;
    assert_eq!(outcome(&altered, 1, 5), (Ok(Route::Low), Err(11)));
}

/// A sum of two entries is not taken within 16 bits.
#[test]
fn sums_do_not_wrap() {
    let mut built = Built::of_text(common::COURSE);
    built.full[1] = NONE - 1;
    built.full[3] = 6;
    built.report[6 + 3] = 4;
    assert_eq!(built.ask(1, 3), Err(11));
    built.full[1] = NONE;
    built.full[3] = 5;
    assert_eq!(built.ask(1, 3), Err(11));
    built.full[1] = 32767;
    built.full[3] = 32767;
    built.report[6 + 3] = NONE - 1;
    assert_eq!(built.ask(1, 3).unwrap().route, Route::Through(0));
    assert_eq!(built.walk(1, 3, &mut [3; 9]), Err(11));
}

/// The smallest hub that attains the report, and any row of Full counts.
#[test]
fn any_node_with_full_entries_is_a_hub() {
    let mut built = Built::of_text("S,4,4\nL,0,1\nL,1,2\nL,2,3\nL,0,3\n");
    assert_eq!(built.hub_count, 0);
    built.low.fill(NONE);
    built.full[8..12].copy_from_slice(&[2, 1, 0, 1]);
    assert_eq!(built.ask(1, 3).unwrap().route, Route::Through(2));
    built.full[0..4].copy_from_slice(&[0, 1, 2, 1]);
    assert_eq!(built.ask(1, 3).unwrap().route, Route::Through(0));
    built.full[1] = NONE;
    assert_eq!(built.ask(1, 3).unwrap().route, Route::Through(2));
    let mut list = [9; 4];
    assert_eq!(
        built.walk(1, 3, &mut list).unwrap().route,
        Route::Through(2)
    );
    assert_eq!(list, [1, 2, 3, NONE]);
}

/// The smallest neighbour that fits is taken, although only the other one
/// leads to the goal.
#[test]
fn a_step_is_not_taken_back() {
    let mut built = Built::of_text("S,6,4\nL,1,4\nL,2,4\nL,0,1\nL,2,5\n");
    let mut list = [9; 4];
    assert!(built.walk(4, 5, &mut list).is_ok());
    assert_eq!(list, [4, 2, 5, NONE]);
    built.low[6 + 5] = 1;
    built.low[5] = 0;
    assert_eq!(built.ask(4, 5).unwrap().route, Route::Low);
    assert_eq!(built.walk(4, 5, &mut list), Err(11));
    assert_eq!(list, [NONE; 4]);
}
