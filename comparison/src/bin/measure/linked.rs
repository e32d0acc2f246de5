//! The speed of asking and walking linked nodes, whose report is 1: beside the second implementation and careful Rust.

use crate::{surveys, verdict, PASSES};
use comparison::common::Sample;
use comparison::timing::{self, Lent};
use comparison::{careful, pair_times};
use reference::Route;
use std::time::Duration;

/// Seconds for asking and for walking.
type Times = [f64; 2];

pub struct LinkedRow {
    survey: String,
    n: usize,
    links: usize,
    high: usize,
    /// Of the proved library, the second implementation and careful Rust.
    times: [Times; 3],
}

/// Measures the surveys that the other calls are measured on.
pub fn measure_all(budget: Duration) -> Vec<LinkedRow> {
    surveys()
        .map(|sample| measure(&sample, budget / PASSES))
        .collect()
}

/// The tables of a survey, and pairs of its nodes that are linked.
fn lent(sample: &Sample) -> Lent {
    let mut x = Lent::new(sample);
    x.pairs = timing::linked_pairs(sample);
    assert!(x.build().is_ok());
    for &(a, b) in &x.pairs {
        let answer = careful::ask(x.n, &x.full, &x.low, &x.report, a, b);
        assert_eq!(answer.map(|answer| answer.route), Ok(Route::Link));
    }
    x
}

fn measure(sample: &Sample, budget: Duration) -> LinkedRow {
    let mut x = lent(sample);
    let mut times = [[f64::MAX; 2]; 3];
    for _ in 0..PASSES {
        let new = [
            pair_times!(&mut x, budget, comparison::proved),
            pair_times!(&mut x, budget, reference),
            pair_times!(&mut x, budget, comparison::careful),
        ];
        for (old, new) in times.iter_mut().flatten().zip(new.iter().flatten()) {
            *old = old.min(*new);
        }
    }
    LinkedRow {
        survey: x.survey,
        n: x.n,
        links: x.neighbours.len() / 2,
        high: x.high,
        times,
    }
}

pub fn print(rows: &[LinkedRow]) {
    println!("asking and walking linked nodes; the second implementation's times and careful Rust's, divided by the proved library's");
    println!(
        "{:8}{:>6}{:>7}{:>6}{:>9}{:>9}{:>9}{:>10}{:>9}{:>9}",
        "survey",
        "nodes",
        "links",
        "high",
        "ask, ns",
        "second",
        "careful",
        "walk, us",
        "second",
        "careful"
    );
    for row in rows {
        let (n, links, high) = (row.n, row.links, row.high);
        let [proved, second, careful] = row.times;
        print!("{:8}{n:>6}{links:>7}{high:>6}", row.survey);
        let ratios = |call: usize| [second[call] / proved[call], careful[call] / proved[call]];
        let ([ask_second, ask_careful], [walk_second, walk_careful]) = (ratios(0), ratios(1));
        print!(
            "{:>9.2}{ask_second:>8.2}x{ask_careful:>8.2}x",
            proved[0] * 1e9
        );
        println!(
            "{:>10.2}{walk_second:>8.2}x{walk_careful:>8.2}x",
            proved[1] * 1e6
        );
    }
}

/// The target on every survey, by the call that is slowest beside careful Rust.
pub fn print_least(rows: &[LinkedRow]) {
    let ratios = |row: &'_ LinkedRow| {
        let [proved, _, careful] = row.times;
        let names = (row.survey.clone(), row.n, row.links);
        ["asking", "walking"]
            .into_iter()
            .enumerate()
            .map(move |(call, name)| (careful[call] / proved[call], name, names.clone()))
            .collect::<Vec<_>>()
    };
    let all = rows.iter().flat_map(ratios);
    let least = all.min_by(|one, other| one.0.total_cmp(&other.0));
    let (value, name, (survey, n, links)) = least.expect("there are rows");
    println!("target on every survey: asking and walking linked nodes beside careful Rust, times as fast");
    println!("  least on {survey}: {n} nodes, {links} links");
    verdict(name, value, 0.9, true);
}
