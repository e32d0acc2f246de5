//! The speed of the proved library beside the second implementation, a careful Rust version of the same method, and igraph's exact
//! distances, in one process on the same input: `measure [MILLISECONDS]`, the time given to each measurement.
//!
//! The repetitions, of which the least time counts, are made in several passes over all implementations.

mod exact;
mod files;
mod linked;
mod thresholds;

use comparison::common::Sample;
use comparison::timing::{self, least, Lent, Times, CALLS};
use comparison::{careful, codes, graphs, proved, times};
use exact::Exact;
use reference::NONE;
use std::hint::black_box;
use std::time::Duration;

const PASSES: u32 = 20;

struct Row {
    survey: String,
    n: usize,
    links: usize,
    high: usize,
    hubs: usize,
    bytes: usize,
    times: [Times; 3],
    sum: f64,
    exact: Option<f64>,
}

fn main() {
    let budget = timing::budget();
    let mut rows = Vec::new();
    for sample in surveys() {
        let row = measure(&sample, budget);
        print_row(&row);
        rows.push(row);
    }
    print_table(&rows);
    print_growth(&rows);
    print_listings(budget);
    let linked = linked::measure_all(budget);
    linked::print(&linked);
    let thresholds = thresholds::measure_all(budget);
    thresholds::print(&thresholds);
    let files = files::measure_all(budget);
    files::print(&files);
    print_targets(&rows);
    print_least(&rows);
    linked::print_least(&linked);
    thresholds::print_least(&thresholds);
    files::print_least(&files);
}

/// The surveys that all calls are measured on.
fn surveys() -> impl Iterator<Item = Sample> {
    let random = [128, 512].into_iter().flat_map(graphs::random_surveys);
    random.chain(graphs::largest_surveys())
}

/// Whether the careful version answers as the second implementation does, on this survey.
fn check_careful(x: &Lent, linked: &[(usize, usize)]) {
    let (n, threshold) = (x.n, x.threshold);
    let mut tables = [(); 6].map(|()| vec![7; n * n]);
    let mut lists = [(); 2].map(|()| vec![7; n]);
    let [full, low, report, other_full, other_low, other_report] = &mut tables;
    let [hubs, other_hubs] = &mut lists;
    let one = reference::build(
        n,
        threshold,
        &x.starts,
        &x.neighbours,
        full,
        low,
        report,
        hubs,
    );
    let other = careful::build(
        n,
        threshold,
        &x.starts,
        &x.neighbours,
        other_full,
        other_low,
        other_report,
        other_hubs,
    );
    assert_eq!(one, other);
    assert!(full == other_full && low == other_low && report == other_report && hubs == other_hubs);
    let tested = careful::test(n, threshold, &x.starts, &x.neighbours);
    assert_eq!(
        codes::tested(tested).code(),
        proved::test(n, threshold, &x.starts, &x.neighbours)
    );
    let (mut walk, mut other_walk) = (vec![7; 2 * n], vec![7; 2 * n]);
    for &(a, b) in x.pairs.iter().chain(linked) {
        let one = reference::walk(
            n,
            threshold,
            &x.starts,
            &x.neighbours,
            full,
            low,
            report,
            a,
            b,
            &mut walk,
        );
        let other = careful::walk(
            n,
            threshold,
            &x.starts,
            &x.neighbours,
            full,
            low,
            report,
            a,
            b,
            &mut other_walk,
        );
        assert!(one == other && walk == other_walk);
    }
    let mut buffer = vec![0; x.text.len()];
    assert_eq!(
        careful::write(n, &x.starts, &x.neighbours, &mut buffer),
        Ok(x.text.len())
    );
    assert!(buffer == x.text);
    let (mut starts, mut neighbours) = (vec![7; n + 1], vec![7; x.neighbours.len()]);
    assert_eq!(
        careful::read(&x.text, &mut starts, &mut neighbours),
        Ok((n, x.neighbours.len() / 2))
    );
    assert!(starts == x.starts && neighbours == x.neighbours);
}

/// Each report lies between the exact distance and two more.
fn check_reports(x: &Lent, exact: &Exact) {
    for a in 0..x.n {
        for b in 0..x.n {
            let report = x.report[a * x.n + b];
            match exact.distance(a, b) {
                None => assert_eq!(report, NONE),
                Some(d) => assert!(d <= report && report <= d + 2),
            }
        }
    }
}

fn hub_count(hubs: &[u16]) -> usize {
    hubs.iter().filter(|&&h| h != NONE).count()
}

/// The lesser of two times, call by call.
fn lesser(one: Times, other: Times) -> Times {
    std::array::from_fn(|k| one[k].min(other[k]))
}

/// Measures all in turn, several times over, so that other work on the machine slows none of them alone.
fn measure(sample: &Sample, budget: Duration) -> Row {
    let mut x = Lent::new(sample);
    check_careful(&x, &timing::linked_pairs(sample));
    let mut exact = Exact::new(x.n, &sample.links());
    let budget = budget / PASSES;
    let mut times = [[f64::MAX; CALLS.len()]; 3];
    let (mut sum, mut exact_time) = (f64::MAX, f64::MAX);
    for _ in 0..PASSES {
        times[1] = lesser(times[1], times!(&mut x, budget, reference));
        times[2] = lesser(times[2], times!(&mut x, budget, comparison::careful));
        times[0] = lesser(times[0], times!(&mut x, budget, comparison::proved));
        sum = sum.min(least(budget, || {
            let starts: u64 = black_box(&x.starts).iter().map(|&s| u64::from(s)).sum();
            let neighbours: u64 = black_box(&x.neighbours).iter().map(|&s| u64::from(s)).sum();
            black_box(starts + neighbours);
        }));
        if let Some(exact) = &mut exact {
            exact_time = exact_time.min(least(budget, || exact.run()));
        }
    }
    if let Some(exact) = &exact {
        check_reports(&x, exact);
    }
    Row {
        survey: x.survey,
        n: x.n,
        links: x.neighbours.len() / 2,
        high: x.high,
        hubs: hub_count(&x.hubs),
        bytes: x.text.len(),
        times,
        sum,
        exact: exact.map(|_| exact_time),
    }
}

fn title(row: &Row) -> String {
    format!(
        "{}: {} nodes, {} links, {} high, {} hubs",
        row.survey, row.n, row.links, row.high, row.hubs
    )
}

fn print_row(row: &Row) {
    let [proved, reference, careful] = &row.times;
    println!("{}", title(row));
    println!(
        "  {:8}{:>12}{:>14}{:>12}",
        "call", "proved, us", "second impl.", "careful"
    );
    for (k, call) in CALLS.iter().enumerate() {
        println!(
            "  {call:8}{:>12.3}{:>13.2}x{:>11.2}x",
            proved[k] * 1e6,
            reference[k] / proved[k],
            careful[k] / proved[k]
        );
    }
    println!(
        "  reading {:.0} MB/s, writing {:.0} MB/s",
        megabytes(row, 0),
        megabytes(row, 1)
    );
    println!("  acceptance {:.2} times a plain sum", proved[2] / row.sum);
    println!(
        "  a walk less acceptance {:.2} us, in careful Rust {:.2} us",
        (proved[5] - proved[2]) * 1e6,
        (careful[5] - careful[2]) * 1e6
    );
    if let Some(exact) = row.exact {
        println!(
            "  igraph's exact distances {:.0} us: {:.2}x building",
            exact * 1e6,
            exact / proved[3]
        );
    }
}

fn megabytes(row: &Row, call: usize) -> f64 {
    row.bytes as f64 / row.times[0][call] / 1e6
}

/// The rows as a table for docs/BENCHMARKS.md.
fn print_table(rows: &[Row]) {
    println!(
        "| survey | nodes | links | high | hubs | {} | igraph / build |",
        CALLS.join(" | ")
    );
    println!("{}|", "|---".repeat(CALLS.len() + 6));
    for row in rows {
        let [proved, reference, careful] = &row.times;
        let (n, links, high, hubs) = (row.n, row.links, row.high, row.hubs);
        print!("| {} | {n} | {links} | {high} | {hubs} |", row.survey);
        for (k, time) in proved.iter().enumerate() {
            print!(" {:.1} / {:.2} |", reference[k] / time, careful[k] / time);
        }
        match row.exact {
            Some(exact) => println!(" {:.1} |", exact / proved[3]),
            None => println!(" - |"),
        }
    }
}

/// Time by what each call has to go through: entries of the lists, and for building entries by nodes.
fn print_growth(rows: &[Row]) {
    println!("growth: nanoseconds for each node and link end (n + 2m); building, for each of them and each node");
    print!("{:>6}{:>7}{:>6}", "nodes", "links", "high");
    CALLS.iter().for_each(|call| print!("{call:>9}"));
    println!();
    for row in rows.iter().filter(|row| row.survey == "random") {
        print!("{:>6}{:>7}{:>6}", row.n, row.links, row.high);
        let entries = (row.n + 2 * row.links) as f64;
        for (k, call) in CALLS.iter().enumerate() {
            let work = if *call == "build" {
                entries * row.n as f64
            } else {
                entries
            };
            print!("{:>9.3}", row.times[0][k] * 1e9 / work);
        }
        println!();
    }
}

/// The listing of sparse surveys: its time, that of the second implementation divided by it, and its growth.
fn print_listings(budget: Duration) {
    println!("listings of surveys with two links a node");
    println!(
        "{:>6}{:>8}{:>12}{:>14}{:>12}",
        "nodes", "pairs", "proved, us", "second impl.", "ns a pair"
    );
    for n in [16, 32, 64, 128] {
        let text = graphs::random_survey(n, false, 2).text().into_bytes();
        let mut buffer = vec![1; reference::reports(&text).len()];
        let (mut proved, mut other) = (f64::MAX, f64::MAX);
        for _ in 0..PASSES {
            other = other.min(least(budget / PASSES, || {
                let listing = reference::reports(black_box(&text));
                let _ = black_box(reference::put_text(&listing, &mut buffer));
            }));
            proved = proved.min(least(budget / PASSES, || {
                black_box(proved::list(black_box(&text), &mut buffer));
            }));
        }
        let pairs = n * (n - 1) / 2;
        println!(
            "{n:>6}{pairs:>8}{:>12.1}{:>13.2}x{:>12.1}",
            proved * 1e6,
            other / proved,
            proved * 1e9 / pairs as f64
        );
    }
}

/// The targets, at 1,024 nodes and 16,384 links.
fn print_targets(rows: &[Row]) {
    println!("targets at 1,024 nodes and 16,384 links");
    for row in rows
        .iter()
        .filter(|row| row.n == 1024 && row.links == 16384)
    {
        let proved = &row.times[0];
        println!("  with {} high nodes", row.high);
        if let Some(exact) = row.exact {
            verdict(
                "building beside igraph, times as fast",
                exact / proved[3],
                30.0,
                true,
            );
        }
        verdict(
            "building beside careful Rust, times as fast",
            ratio(row, 3),
            1.0,
            true,
        );
        verdict("reading, MB/s", megabytes(row, 0), 100.0, true);
        verdict(
            "acceptance, times a plain sum",
            proved[2] / row.sum,
            4.0,
            false,
        );
        verdict(
            "a walk, times acceptance",
            proved[5] / proved[2],
            1.25,
            false,
        );
    }
}

/// The target on every survey, by the call that is slowest beside careful Rust.
fn print_least(rows: &[Row]) {
    let of_row = |row| (0..CALLS.len()).map(move |k| (ratio(row, k), k, row));
    let all = rows.iter().flat_map(of_row);
    let least = all.min_by(|one, other| one.0.total_cmp(&other.0));
    let (value, k, row) = least.expect("there are rows");
    println!("target on every survey: each call beside careful Rust, times as fast");
    println!("  least on {}", title(row));
    verdict(CALLS[k], value, 0.9, true);
}

/// How many times as fast a call is as careful Rust.
fn ratio(row: &Row, call: usize) -> f64 {
    let [proved, _, careful] = &row.times;
    careful[call] / proved[call]
}

pub fn verdict(name: &str, value: f64, bound: f64, at_least: bool) {
    let met = if at_least {
        value >= bound
    } else {
        value <= bound
    };
    let word = if at_least { "at least" } else { "at most" };
    println!(
        "    {name}: {value:.2} ({word} {bound}): {}",
        if met { "met" } else { "missed" }
    );
}
