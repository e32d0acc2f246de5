//! The speed of building by other thresholds than the stored table's: beside careful Rust by the same threshold.

use crate::exact::Exact;
use crate::{check_reports, hub_count, verdict, PASSES};
use comparison::common::Sample;
use comparison::timing::Lent;
use comparison::{build_time, graphs};
use std::time::Duration;

/// What building by a threshold took.
struct Built {
    threshold: usize,
    hubs: usize,
    /// Seconds of the proved library and of careful Rust.
    proved: f64,
    careful: f64,
}

impl Built {
    /// How many times as fast as careful Rust it is.
    fn ratio(&self) -> f64 {
        self.careful / self.proved
    }
}

pub struct ThresholdRow {
    survey: String,
    links: usize,
    built: Vec<Built>,
}

/// By the least threshold all nodes with links are high, by the last none.
fn thresholds(n: usize) -> [usize; 3] {
    [1, reference::threshold(n).expect("1 to 1,024 nodes"), 1024]
}

/// Measures the largest surveys.
pub fn measure_all(budget: Duration) -> Vec<ThresholdRow> {
    let samples = graphs::largest_surveys();
    samples
        .iter()
        .map(|sample| measure(sample, budget / PASSES))
        .collect()
}

fn measure(sample: &Sample, budget: Duration) -> ThresholdRow {
    let mut x = Lent::new(sample);
    let mut exact = Exact::new(x.n, &sample.links());
    if let Some(exact) = &mut exact {
        exact.run();
    }
    let built = thresholds(x.n).map(|threshold| {
        x.threshold = threshold;
        build(&mut x, exact.as_ref(), budget)
    });
    ThresholdRow {
        links: x.neighbours.len() / 2,
        survey: x.survey,
        built: built.into(),
    }
}

/// Both must leave the same tables, and these the allowance.
fn build(x: &mut Lent, exact: Option<&Exact>, budget: Duration) -> Built {
    assert!(x.build().is_ok());
    let careful_tables = x.built().map(<[u16]>::to_vec);
    let (mut proved, mut careful) = (f64::MAX, f64::MAX);
    for _ in 0..PASSES {
        careful = careful.min(build_time!(x, budget, comparison::careful));
        proved = proved.min(build_time!(x, budget, comparison::proved));
    }
    assert!(x.built() == careful_tables);
    if let Some(exact) = exact {
        check_reports(x, exact);
    }
    Built {
        threshold: x.threshold,
        hubs: hub_count(&x.hubs),
        proved,
        careful,
    }
}

pub fn print(rows: &[ThresholdRow]) {
    println!("building by three thresholds on surveys of 1,024 nodes; careful Rust's time by the same one, divided by the proved library's");
    print!("{:8}{:>7}", "survey", "links");
    for built in &rows[0].built {
        let time = format!("by {}, us", built.threshold);
        print!("{time:>14}{:>6}{:>9}", "hubs", "careful");
    }
    println!();
    for row in rows {
        print!("{:8}{:>7}", row.survey, row.links);
        for built in &row.built {
            let (time, hubs) = (built.proved * 1e6, built.hubs);
            print!("{time:>14.1}{hubs:>6}{:>8.2}x", built.ratio());
        }
        println!();
    }
}

/// The target on every survey, by the threshold with which building is slowest beside careful Rust.
pub fn print_least(rows: &[ThresholdRow]) {
    let of_row = |row: &'_ ThresholdRow| {
        let names = (row.survey.clone(), row.links);
        let each = row.built.iter();
        each.map(move |built| (built.ratio(), built.threshold, names.clone()))
            .collect::<Vec<_>>()
    };
    let all = rows.iter().flat_map(of_row);
    let least = all.min_by(|one, other| one.0.total_cmp(&other.0));
    let (value, threshold, (survey, links)) = least.expect("there are rows");
    println!(
        "target on every survey: building by three thresholds beside careful Rust, times as fast"
    );
    println!("  least on {survey}: 1024 nodes, {links} links, by {threshold}");
    verdict("building", value, 0.9, true);
}
