//! Demand 3 by brute force, and the defined tables and counts.

mod common;

use common::{
    expected_walk, is_allowed, is_chain, is_right, Built, Expected, Random, Sample,
    REFUSED_THRESHOLDS, UNJOINED,
};
use reference::{Answer, Route, Verdict, NONE};

fn check_tables(sample: &Sample, built: &Built, expected: &Expected) {
    assert_eq!(built.full, expected.full, "{}", sample.name);
    assert_eq!(built.low, expected.low, "{}", sample.name);
    assert_eq!(built.report, expected.report, "{}", sample.name);
    assert_eq!(built.hubs, expected.hub_list(), "{}", sample.name);
    assert_eq!(built.hub_count, expected.hubs.len(), "{}", sample.name);
}

fn check_report(expected: &Expected, answer: Answer, a: usize, b: usize) {
    let (distance, report) = (expected.distances[a][b], answer.report as usize);
    assert!(is_allowed(distance, report));
    assert_eq!(answer.route == Route::NoRoute, distance >= UNJOINED);
    assert_eq!(answer.route == Route::Itself, a == b);
    // Linked nodes report 1, so what reports 2 is two links apart.
    assert!(report > 2 || report == distance);
}

/// The walk in lists of the exact length, longer ones and shorter ones.
fn check_walk(sample: &Sample, built: &Built, answer: Answer, a: usize, b: usize) -> Vec<u16> {
    if answer.route == Route::NoRoute {
        for length in [0, 1, 9] {
            let mut list = vec![3; length];
            assert_eq!(built.walk(a, b, &mut list), Ok(answer));
            assert_eq!(list, vec![NONE; length]);
        }
        return vec![];
    }
    let needed = answer.report as usize + 1;
    let mut exact = vec![3; needed];
    assert_eq!(built.walk(a, b, &mut exact), Ok(answer));
    assert!(is_chain(sample, &exact, a, b, answer.report));
    let mut longer = vec![3; needed + 1 + (a + b) % 5];
    assert_eq!(built.walk(a, b, &mut longer), Ok(answer));
    assert_eq!(longer[..needed], exact);
    assert!(longer[needed..].iter().all(|&entry| entry == NONE));
    let shortest = if sample.n <= 16 { 0 } else { needed - 1 };
    for length in shortest..needed {
        let mut short = vec![3; length];
        assert_eq!(built.walk(a, b, &mut short), Err(8));
        assert_eq!(short, vec![NONE; length]);
    }
    exact
}

fn check_pair(sample: &Sample, built: &Built, expected: &Expected, a: usize, b: usize) {
    let answer = built.ask(a, b).unwrap();
    let defined = common::expected_ask(built, a, b).unwrap();
    assert_eq!((answer.report, answer.route), defined, "{}", sample.name);
    check_report(expected, answer, a, b);
    let nodes = check_walk(sample, built, answer, a, b);
    let low_nodes = &expected.low_nodes;
    let defined = expected_walk(sample, built, low_nodes, answer.route, a, b).unwrap();
    let nodes: Vec<usize> = nodes.iter().map(|&v| v as usize).collect();
    assert_eq!(nodes, defined, "{}", sample.name);
}

fn check_verdict(sample: &Sample, built: &Built, expected: &Expected) -> Verdict {
    let tested = built.test().unwrap();
    let right = is_right(&expected.distances, tested.verdict);
    assert!(right, "{}", sample.name);
    let sources: Vec<usize> = match expected.low_nodes.iter().position(|&is_low| is_low) {
        Some(v) => (0..sample.n)
            .filter(|&x| x == v || sample.linked[v][x])
            .collect(),
        None => expected.hubs.clone(),
    };
    assert_eq!(tested.searches, sources.len(), "{}", sample.name);
    let deepest = sources.iter().flat_map(|&v| &expected.distances[v]).max();
    let verdict = match *deepest.unwrap() {
        UNJOINED.. => Verdict::Parted,
        3.. => Verdict::Long,
        _ => Verdict::Short,
    };
    assert_eq!(tested.verdict, verdict, "{}", sample.name);
    verdict
}

/// Tables, reports, the walks of at most so many pairs, and the verdict, with
/// every threshold.
fn check_sample(sample: &Sample, most_walks: usize, random: &mut Random) {
    for threshold in common::thresholds(sample.n) {
        let built = Built::of_sample(sample, threshold);
        let expected = Expected::of(sample, threshold);
        check_tables(sample, &built, &expected);
        for (a, b) in common::pairs(sample.n) {
            check_report(&expected, built.ask(a, b).unwrap(), a, b);
        }
        for (a, b) in some_pairs(random, sample.n, most_walks) {
            check_pair(sample, &built, &expected, a, b);
        }
        check_verdict(sample, &built, &expected);
    }
    let built = Built::of_sample(sample, 0);
    for threshold in REFUSED_THRESHOLDS {
        built.given(threshold).check_refused(14, (0, sample.n - 1));
    }
}

/// All pairs of n nodes, or some where there are more.
fn some_pairs(random: &mut Random, n: usize, most: usize) -> Vec<(usize, usize)> {
    let mut pairs = common::pairs(n);
    if pairs.len() > most {
        random.shuffle(&mut pairs);
        pairs.truncate(most);
    }
    pairs
}

#[test]
fn small_graphs() {
    let mut random = Random::new(1);
    for sample in common::small_samples(1) {
        check_sample(&sample, 256, &mut random);
    }
}

#[test]
fn larger_graphs() {
    let mut random = Random::new(2);
    for sample in common::larger_samples(3) {
        check_sample(&sample, 256, &mut random);
    }
}

#[test]
fn every_graph_of_up_to_five_nodes() {
    let mut random = Random::new(4);
    for n in 1..=5 {
        let pairs: Vec<(usize, usize)> = common::blocks(n, 1).links();
        for choice in 0..1u32 << pairs.len() {
            let mut sample = Sample::new(&format!("choice {choice}"), n);
            for (index, &(a, b)) in pairs.iter().enumerate() {
                if choice >> index & 1 == 1 {
                    sample.link(a, b);
                }
            }
            check_sample(&sample, 25, &mut random);
        }
    }
}

/// Without these the tests above would show little.
#[test]
fn samples_are_varied() {
    let mut samples = common::small_samples(1);
    samples.extend(common::larger_samples(3));
    let (mut with_hubs, mut several_hubs, mut low_hubs, mut no_low) = (0, 0, 0, 0);
    let (mut longer_reports, mut two_more) = (0, 0);
    let mut verdicts = vec![];
    for sample in &samples {
        let (built, expected) = (Built::of_sample(sample, 0), Expected::of(sample, 0));
        with_hubs += usize::from(built.hub_count > 0);
        several_hubs += usize::from(built.hub_count > 1);
        low_hubs += usize::from(expected.hubs.iter().any(|&h| expected.low_nodes[h]));
        no_low += usize::from(!expected.low_nodes.contains(&true));
        let distances = expected.distances.iter().flatten();
        let excess: Vec<usize> = distances
            .zip(&built.report)
            .filter(|&(_, &report)| report != NONE)
            .map(|(&distance, &report)| report as usize - distance)
            .collect();
        longer_reports += usize::from(excess.iter().any(|&links| links > 0));
        two_more += usize::from(excess.contains(&2));
        verdicts.push(check_verdict(sample, &built, &expected));
    }
    let count = |verdict| verdicts.iter().filter(|&&found| found == verdict).count();
    println!(
        "{} samples, {with_hubs} with hubs, {several_hubs} with several",
        samples.len()
    );
    println!("{low_hubs} with a low hub, {no_low} without low nodes");
    println!("{longer_reports} with a longer report, {two_more} by two");
    assert!(with_hubs > 300 && several_hubs > 100 && low_hubs > 20 && no_low > 100);
    assert!(longer_reports > 200 && two_more > 100);
    assert!(count(Verdict::Parted) > 100 && count(Verdict::Long) > 100);
    assert!(count(Verdict::Short) > 100);
}
