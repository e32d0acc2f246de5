//! Reports of 1: the route `link`, and its walk, in tables that are built,
//! older or altered.

mod common;

use common::{expected_low_nodes, pairs, Built, Sample, COURSE, REFUSED_THRESHOLDS};
use reference::{Answer, Route, NONE};

const LINK: Answer = Answer {
    report: 1,
    route: Route::Link,
};

/// The walk of a report of 1 in lists of 0 to 3 entries: 11 in each if the
/// nodes are not linked, else 8 where two nodes do not fit. A threshold that
/// is too great is refused before all that.
fn check_walks(built: &Built, linked: bool, a: usize, b: usize) {
    for length in 0..=3 {
        let mut list = vec![9; length];
        let walked = built.walk(a, b, &mut list);
        let mut expected = vec![NONE; length];
        if !linked {
            assert_eq!(walked, Err(11));
        } else if length < 2 {
            assert_eq!(walked, Err(8));
        } else {
            assert_eq!(walked, Ok(LINK));
            expected[..2].copy_from_slice(&[a as u16, b as u16]);
        }
        assert_eq!(list, expected);
    }
    for threshold in REFUSED_THRESHOLDS {
        built.given(threshold).check_refused_walk(14, (a, b));
    }
}

/// The samples of few nodes, each with the tables built from it with every
/// threshold.
fn small_built(seed: u64) -> impl Iterator<Item = (Sample, Built)> {
    let samples = common::small_samples(seed).into_iter();
    let samples = samples.filter(|sample| sample.n <= 20);
    samples.flat_map(|sample| {
        let thresholds = common::thresholds(sample.n).into_iter();
        thresholds.map(move |threshold| (sample.clone(), Built::of_sample(&sample, threshold)))
    })
}

#[test]
fn built_tables() {
    for (sample, built) in small_built(21) {
        for (a, b) in pairs(sample.n) {
            let linked = sample.linked[a][b];
            assert_eq!(built.ask(a, b) == Ok(LINK), linked, "{}", sample.name);
            if linked {
                check_walks(&built, linked, a, b);
            }
        }
    }
}

/// Asking has no lists, so it answers every pair of different nodes.
#[test]
fn all_ones() {
    for (sample, mut built) in small_built(22) {
        for table in [&mut built.full, &mut built.low, &mut built.report] {
            table.fill(1);
        }
        for (a, b) in pairs(sample.n) {
            let asked = if a == b { Err(11) } else { Ok(LINK) };
            assert_eq!(built.ask(a, b), asked, "{}", sample.name);
            check_walks(&built, sample.linked[a][b], a, b);
        }
    }
}

/// A walk does not overrule its table, and the report of a linked pair stays
/// within two of the fewest links, 1.
#[test]
fn tables_from_before() {
    let mut met = [0; 4];
    for (sample, built) in small_built(23) {
        let older = built.before_links(&sample);
        let low_nodes = expected_low_nodes(&sample, older.threshold);
        for (a, b) in sample.links() {
            let answer = older.ask(a, b).unwrap();
            let nodes = common::expected_walk(&sample, &older, &low_nodes, answer.route, a, b);
            let mut list = vec![9; answer.report as usize + 1];
            assert_eq!(older.walk(a, b, &mut list), Ok(answer));
            let list: Vec<usize> = list.into_iter().map(usize::from).collect();
            assert_eq!(Some(list), nodes, "{}", sample.name);
            met[answer.report as usize] += 1;
        }
    }
    println!("linked pairs with a report of 1, 2 and 3: {:?}", &met[1..]);
    assert!(met[1..].iter().all(|&count| count > 100));
}

#[test]
fn course_from_before() {
    let older = Built::of_text(COURSE).before_links(&common::course());
    let mut list = [9; 4];
    let through = Answer {
        report: 3,
        route: Route::Through(0),
    };
    assert_eq!(older.walk(5, 3, &mut list), Ok(through));
    assert_eq!(list, [5, 0, 5, 3]);
    assert_eq!(older.walk(5, 3, &mut list[..3]), Err(8));
}

/// At a node itself a report of 1 is no link, and no 0 is one elsewhere.
#[test]
fn ones_and_zeros_out_of_place() {
    let built = Built::of_text(COURSE);
    let mut altered = built.clone();
    for v in 0..6 {
        altered.report[7 * v] = 1;
        assert_eq!(altered.ask(v, v), Err(11));
        check_walks(&altered, false, v, v);
    }
    for (a, b) in [(3, 5), (1, 2), (1, 3)] {
        let mut altered = built.clone();
        altered.report[6 * a + b] = 0;
        assert_eq!(altered.ask(a, b), Err(11));
        let mut by_low = altered.clone();
        by_low.low[6 * a + b] = 0;
        assert_eq!(by_low.ask(a, b).map(|x| x.route), Ok(Route::Low));
        altered.full[24 + a] = 0;
        altered.full[24 + b] = 0;
        let asked = altered.ask(a, b).map(|x| x.route);
        assert_eq!(asked, Ok(Route::Through(4)));
        for tables in [by_low, altered] {
            check_walks(&tables, false, a, b);
        }
    }
}

/// A report of 1 that Low attains, or a hub, or both, or neither.
#[test]
fn whatever_attains_it() {
    let built = Built::of_text(COURSE);
    for (a, b, linked) in [(0, 5, true), (1, 2, true), (3, 5, true), (1, 3, false)] {
        for choice in 0..4 {
            let mut altered = built.clone();
            altered.report[6 * a + b] = 1;
            altered.low[6 * a + b] = if choice & 1 == 1 { 1 } else { NONE };
            altered.full.fill(NONE);
            if choice & 2 == 2 {
                altered.full[6 * a + a] = 0;
                altered.full[6 * a + b] = 1;
            }
            assert_eq!(altered.ask(a, b), Ok(LINK));
            check_walks(&altered, linked, a, b);
        }
    }
}
