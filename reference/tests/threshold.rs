//! The threshold as a setting: what it changes, and where it is refused.

mod common;

use common::{
    course, expected_low_nodes, expected_walk, is_allowed, is_chain, is_right, pairs, Built,
    Random, Sample, REFUSED_THRESHOLDS,
};
use reference::{threshold, Route, Verdict, NONE};

#[test]
fn course_survey() {
    let (by_hub, by_5) = (&[1, 5, 0, 5, 3][..], &[1, 5, 3][..]);
    // The threshold, the hub, the route and the walk of (1, 3), and the
    // searches of the test.
    for (threshold, hub, route, walk, searches) in [
        (0, Some(0), Route::Through(0), by_hub, 2),
        (1, Some(5), Route::Through(5), by_5, 1),
        (2, Some(1), Route::Through(1), by_5, 2),
        (3, Some(0), Route::Through(0), by_hub, 2),
        (4, Some(0), Route::Through(0), by_hub, 2),
        (5, Some(0), Route::Through(0), by_hub, 2),
        (6, None, Route::Low, by_5, 2),
        (7, None, Route::Low, by_5, 2),
        (1024, None, Route::Low, by_5, 2),
    ] {
        let built = Built::of_sample(&course(), threshold);
        assert_eq!(built.hub_count, hub.iter().len(), "{threshold}");
        assert_eq!(built.hubs[0], hub.unwrap_or(NONE), "{threshold}");
        assert_eq!(built.hubs[1..], [NONE; 5], "{threshold}");
        let mut list = vec![9; walk.len()];
        let answer = built.walk(1, 3, &mut list).unwrap();
        assert_eq!(built.ask(1, 3), Ok(answer), "{threshold}");
        assert_eq!(answer.route, route, "{threshold}");
        assert_eq!(usize::from(answer.report), walk.len() - 1, "{threshold}");
        assert_eq!(list, walk, "{threshold}");
        let tested = built.test().unwrap();
        assert_eq!(tested.searches, searches, "{threshold}");
        assert_eq!(tested.verdict, Verdict::Short, "{threshold}");
    }
}

/// The samples of at most so many nodes.
fn samples_up_to(n: usize, seed: u64) -> Vec<Sample> {
    let mut samples = common::small_samples(seed);
    samples.retain(|sample| sample.n <= n);
    samples
}

#[test]
fn zero_is_the_stored_threshold() {
    let (mut one_less, mut one_more) = (0, 0);
    for sample in samples_up_to(16, 31) {
        let s = threshold(sample.n).unwrap();
        let stored = Built::of_sample(&sample, 0);
        let by_s = Built::of_sample(&sample, s);
        assert!(by_s.given(0) == stored, "{}", sample.name);
        assert_eq!(by_s.test(), stored.test(), "{}", sample.name);
        for (a, b) in pairs(sample.n) {
            let mut lists = [[9; 40]; 2];
            let walked = stored.walk(a, b, &mut lists[0]);
            assert_eq!(by_s.walk(a, b, &mut lists[1]), walked);
            assert_eq!(lists[0], lists[1], "{}", sample.name);
        }
        // For a single node s is 1, and 0 would ask for it again.
        one_less += usize::from(s > 1 && Built::of_sample(&sample, s - 1).given(0) != stored);
        one_more += usize::from(Built::of_sample(&sample, s + 1).given(0) != stored);
    }
    println!("one less differs {one_less} times, one more {one_more} times");
    assert!(one_less > 10 && one_more > 10);
}

/// Only nodes without links are low, and each other one is a hub or linked to
/// one.
#[test]
fn one_makes_every_linked_node_high() {
    for sample in samples_up_to(40, 32) {
        let n = sample.n;
        let built = Built::of_sample(&sample, 1);
        for (a, b) in pairs(n) {
            let alone = a == b && sample.degree(a) == 0;
            let entry = if alone { 0 } else { NONE };
            assert_eq!(built.low[a * n + b], entry, "{}", sample.name);
        }
        for v in (0..n).filter(|&v| sample.degree(v) > 0) {
            let near = (0..n).any(|h| built.full[h * n + v] <= 1);
            assert!(near, "{}", sample.name);
        }
    }
}

/// A node of n has at most n - 1 neighbours, so from n on none is high.
#[test]
fn from_n_on_reports_are_the_fewest_links() {
    for sample in samples_up_to(40, 33) {
        let n = sample.n;
        let distances = common::distances(&sample, &vec![true; n]);
        let links = distances.into_iter().flatten();
        let fewest: Vec<u16> = links.map(common::entry).collect();
        for threshold in [n, n + 1, 1024] {
            let built = Built::of_sample(&sample, threshold);
            assert_eq!((built.hub_count, built.hubs), (0, vec![NONE; n]));
            assert_eq!(built.full, vec![NONE; n * n]);
            assert_eq!(built.report, fewest, "{}", sample.name);
        }
    }
}

/// One less than n is not above every count of neighbours.
#[test]
fn one_less_than_n_may_have_a_hub() {
    for n in 2..=40 {
        for sample in [common::star(n, n - 1), common::blocks(n, 1)] {
            assert_eq!(Built::of_sample(&sample, n - 1).hubs[0], 0);
        }
    }
}

/// Above n all thresholds are alike.
#[test]
fn thresholds_up_to_1024() {
    let none_high = Built::of_sample(&course(), 6);
    for threshold in 7..=1024 {
        let built = Built::of_sample(&course(), threshold);
        assert!(built.given(6) == none_high, "{threshold}");
        assert_eq!(built.test(), none_high.test(), "{threshold}");
        let mut list = [9; 3];
        assert!(built.walk(1, 3, &mut list).is_ok(), "{threshold}");
        assert_eq!(list, [1, 5, 3]);
    }
}

/// Also numbers whose last 16 or 32 binary digits are a threshold.
#[test]
fn thresholds_above_1024() {
    let built = Built::of_sample(&course(), 0);
    let mut list = [9; 8];
    for threshold in [
        1025,
        1026,
        2048,
        65535,
        65536,
        65541,
        1 << 32,
        (1 << 32) + 5,
        1 << 63,
        usize::MAX - 1,
        usize::MAX,
    ] {
        let refused = built.given(threshold);
        refused.check_refused(14, (1, 3));
        // Nothing is left of a walk that stood in the list.
        assert!(built.walk(1, 3, &mut list).is_ok());
        assert_eq!(list, [1, 5, 0, 5, 3, NONE, NONE, NONE]);
        assert_eq!(refused.walk(1, 3, &mut list), Err(14));
        assert_eq!(list, [NONE; 8]);
    }
}

/// What came up over all samples and thresholds.
#[derive(Default, Debug)]
struct Seen {
    several_hubs: usize,
    no_hub: usize,
    exact: usize,
    one_more: usize,
    two_more: usize,
    verdicts: [usize; 3],
}

/// Demand 3 with every threshold from 0 to n + 1.
fn check_allowance(sample: &Sample, seen: &mut Seen) {
    let n = sample.n;
    let fewest = common::distances(sample, &vec![true; n]);
    for threshold in 0..=n + 1 {
        let built = Built::of_sample(sample, threshold);
        seen.several_hubs += usize::from(built.hub_count > 1);
        seen.no_hub += usize::from(built.hub_count == 0);
        for (a, b) in pairs(n) {
            let report = usize::from(built.ask(a, b).unwrap().report);
            let links = fewest[a][b];
            assert!(is_allowed(links, report), "{} {threshold}", sample.name);
            match report.checked_sub(links) {
                Some(0) => seen.exact += 1,
                Some(1) => seen.one_more += 1,
                Some(2) => seen.two_more += 1,
                _ => {}
            }
        }
        let verdict = built.test().unwrap().verdict;
        assert!(is_right(&fewest, verdict), "{} {threshold}", sample.name);
        seen.verdicts[usize::from(verdict.number())] += 1;
    }
}

#[test]
fn allowance_and_verdict() {
    let mut random = Random::new(34);
    let mut seen = Seen::default();
    for sample in samples_up_to(24, 35) {
        check_allowance(&sample, &mut seen);
    }
    for _ in 0..300 {
        let (n, chance) = (1 + random.below(24), 1 + random.below(60));
        check_allowance(&common::random_links(&mut random, n, chance), &mut seen);
    }
    println!("{seen:?}");
    assert!(seen.several_hubs > 1000 && seen.no_hub > 1000);
    assert!(seen.exact > 10_000 && seen.one_more > 10_000 && seen.two_more > 10_000);
    assert!(seen.verdicts.iter().all(|&count| count > 1000));
}

/// How walks with another threshold compare with those of the tables' own.
#[derive(Default, Debug)]
struct Walks {
    same: usize,
    other: usize,
    refused: usize,
}

/// Walks all pairs with another threshold than the tables were built with. If
/// every node that is low in the tables stays so, the walks are the same.
fn check_other_threshold(sample: &Sample, built: &Built, threshold: usize, walks: &mut Walks) {
    let n = sample.n;
    let other = built.given(threshold);
    let low_nodes = expected_low_nodes(sample, threshold);
    let all_stay = (0..n).all(|v| low_nodes[v] || built.low[v * n + v] == NONE);
    for (a, b) in pairs(n) {
        let answer = built.ask(a, b).unwrap();
        let [mut own, mut list] = [(); 2].map(|()| vec![9; 2 * n]);
        assert_eq!(built.walk(a, b, &mut own), Ok(answer));
        let walked = other.walk(a, b, &mut list);
        assert!(!all_stay || list == own, "{}", sample.name);
        let Some(nodes) = expected_walk(sample, built, &low_nodes, answer.route, a, b) else {
            assert_eq!((walked, list), (Err(11), vec![NONE; 2 * n]));
            walks.refused += 1;
            continue;
        };
        assert_eq!(walked, Ok(answer), "{}", sample.name);
        let (written, rest) = list.split_at(nodes.len());
        assert!(written.iter().map(|&v| usize::from(v)).eq(nodes));
        assert!(rest.iter().all(|&entry| entry == NONE));
        if answer.route != Route::NoRoute {
            assert!(is_chain(sample, written, a, b, answer.report));
            walks.same += usize::from(list == own);
            walks.other += usize::from(list != own);
        }
    }
}

#[test]
fn walks_with_another_threshold() {
    let mut walks = Walks::default();
    for sample in samples_up_to(10, 36) {
        for own in 0..=sample.n + 1 {
            let built = Built::of_sample(&sample, own);
            for threshold in 0..=sample.n + 1 {
                check_other_threshold(&sample, &built, threshold, &mut walks);
            }
        }
    }
    println!("{walks:?}");
    assert!(walks.same > 1000 && walks.other > 100 && walks.refused > 1000);
}

/// Nodes 1 and 2 both lie between 0 and 3. With threshold 3 node 1 is high,
/// and with 2 every node but 4.
#[test]
fn a_walk_goes_by_its_own_threshold() {
    let links = [(0, 1), (0, 2), (1, 3), (2, 3), (1, 4)];
    let built = Built::of_sample(&common::from_links("fork", 5, &links), 4);
    for (threshold, expected) in [
        (0, Some([0, 1, 3])),
        (1, None),
        (2, None),
        (3, Some([0, 2, 3])),
        (4, Some([0, 1, 3])),
        (1024, Some([0, 1, 3])),
    ] {
        let mut list = [9; 3];
        let walked = built.given(threshold).walk(0, 3, &mut list);
        let answer = built.ask(0, 3);
        assert_eq!(walked, expected.map_or(Err(11), |_| answer), "{threshold}");
        assert_eq!(list, expected.unwrap_or([NONE; 3]), "{threshold}");
    }
}

/// A fault, and what building, walking (1, 3) and testing are refused for it.
type Fault = (fn(&mut Built), [u8; 3]);

const FAULTS: [Fault; 8] = [
    (|built| built.starts.truncate(6), [8, 8, 8]),
    (|built| built.full.truncate(35), [8, 8, 0]),
    (|built| built.low.truncate(35), [8, 8, 0]),
    (|built| built.report.truncate(35), [8, 8, 0]),
    (|built| built.hubs.truncate(5), [8, 0, 0]),
    (|built| built.neighbours[0] = 0, [9, 9, 9]),
    (|built| built.neighbours.truncate(11), [9, 9, 9]),
    (|built| built.report[6 + 3] = 3, [0, 11, 0]),
];

/// What building, walking and testing are refused; 0 stands for success.
fn refusals(built: &Built, (a, b): (usize, usize)) -> [u8; 3] {
    [
        built.clone().build().err(),
        built.walk(a, b, &mut [9; 5]).err(),
        built.test().err(),
    ]
    .map(|refusal| refusal.unwrap_or(0))
}

/// 2 first, then 14, then the fault's own number.
#[test]
fn order_of_refusals() {
    for (fault, own) in FAULTS {
        let mut faulty = Built::of_sample(&course(), 0);
        fault(&mut faulty);
        for threshold in [0, 5, 1024] {
            assert_eq!(refusals(&faulty.given(threshold), (1, 3)), own);
        }
        for pair in [(1, 3), (6, 3), (1, usize::MAX)] {
            for threshold in REFUSED_THRESHOLDS {
                faulty.given(threshold).check_refused(14, pair);
            }
            for threshold in [0, 1024, 1025, usize::MAX] {
                for n in [0, 1025, usize::MAX] {
                    let mut other = faulty.given(threshold);
                    other.n = n;
                    other.check_refused(2, pair);
                }
            }
        }
    }
    let built = Built::of_sample(&course(), 1024);
    assert_eq!(refusals(&built, (6, 3)), [0, 10, 0]);
    assert_eq!(built.walk(1, 3, &mut [9; 2]), Err(8));
}
