//! Compares every call of the proved library with the second implementation: `compare CASES SEED`.
//!
//! A case is one call of both on the same input. Answers are compared, as numbers and as the header reads them, and every lent list
//! whole, between guard words. No call may give a refusal that is not one of its own. A text that was read is imported as a file too, and
//! a file that was exported is imported again; both must leave the same lists. Whatever the threshold, a walk must be a chain of links,
//! and of a small survey each report at most two above the fewest links and each verdict right. A run of many cases also has to meet every
//! refusal that a call can give, every kind of threshold, every kind of survey that building does something else for, every kind of file,
//! and of asking and walking every route, reports of 1 of nodes that are linked and that are not, with walk lists of every length around
//! two, and at a node itself, reports of 0 between different nodes, and every kind of tables.

mod calls;
mod demand;
mod files;
mod lent;
mod lists;
mod many;
mod pairs;
mod tables;
mod texts;
mod thresholds;

use calls::{Round, CALLS, LISTED};
use comparison::common::{self, Random, Sample};
use comparison::{codes, graphs, header};
use std::process::ExitCode;
use std::time::{Duration, Instant};

/// A run of this many cases has to meet every refusal and every kind.
const MANY: u64 = 100_000;

/// How often there was an answer (place 0) or a refusal with a number.
type Row = [u64; 15];

#[derive(Default)]
pub struct Counts {
    pub calls: [Row; CALLS.len()],
    /// What the listings say, also those that the buffer was too short for.
    pub listings: Row,
    /// How often building was answered on each kind of survey.
    pub kinds: [u64; many::KINDS.len()],
    /// How often importing met each kind of file.
    pub files: [u64; files::KINDS.len()],
    /// How often a text was read, and the same survey imported.
    pub read_and_imported: u64,
    pub exported_and_imported: u64,
    pub thresholds: thresholds::Met,
    pub pairs: pairs::Met,
}

impl Counts {
    pub fn total(&self) -> u64 {
        self.calls.iter().flatten().sum()
    }

    /// The refusals that a call can give, or a listing name, the kinds of thresholds, and the kinds for building, importing, asking and
    /// walking, that were not met.
    fn unmet(&self) -> Vec<String> {
        let calls = CALLS.iter().map(|call| (call.name, call.refusals));
        let named = calls.chain([("listing", &LISTED[..])]);
        let rows = self.calls.iter().chain([&self.listings]);
        let mut unmet = Vec::new();
        for ((name, refusals), row) in named.zip(rows) {
            for &number in refusals {
                if row[number] == 0 {
                    unmet.push(format!("{name} {number}"));
                }
            }
        }
        let surveys = many::KINDS.map(|kind| format!("build on {kind}"));
        let files = files::KINDS.map(|kind| format!("import of {kind}"));
        let both = ["read and imported", "exported and imported"].map(String::from);
        let names = surveys.into_iter().chain(files).chain(both);
        let both = [self.read_and_imported, self.exported_and_imported];
        let counts = self.kinds.into_iter().chain(self.files).chain(both);
        let others = [self.thresholds.named(), self.pairs.named()].concat();
        for (name, count) in names.zip(counts).chain(others) {
            if count == 0 {
                unmet.push(name);
            }
        }
        unmet
    }
}

fn main() -> ExitCode {
    let arguments: Vec<u64> = std::env::args()
        .skip(1)
        .filter_map(|word| word.parse().ok())
        .collect();
    let [cases, seed] = arguments[..] else {
        eprintln!("usage: compare CASES SEED");
        return ExitCode::FAILURE;
    };
    let mut counts = Counts::default();
    match run(cases, seed, &mut counts) {
        Ok(()) => {
            print_counts(&counts);
            println!("{cases} cases agree, seed {seed}");
            let unmet = counts.unmet();
            if unmet.is_empty() {
                println!("each call met each of its refusals and each kind of threshold, building each kind of survey, importing each kind of");
                println!("file, and asking and walking each route, reports of 0 and 1, and each kind of tables");
                return ExitCode::SUCCESS;
            }
            println!("not met: {}", unmet.join("; "));
            if cases < MANY {
                ExitCode::SUCCESS
            } else {
                ExitCode::FAILURE
            }
        }
        Err(message) => {
            println!("{message}");
            ExitCode::FAILURE
        }
    }
}

/// Runs rounds, each on a graph of its own, until there were enough cases.
fn run(cases: u64, seed: u64, counts: &mut Counts) -> Result<(), String> {
    header::check_constants()?;
    codes::check_largest()?;
    let begun = Instant::now();
    let mut shown = begun;
    let mut round = 0;
    while counts.total() < cases {
        let mut random = Random::new(seed.wrapping_mul(1_000_003).wrapping_add(round));
        let sample = choose_graph(&mut random);
        Round::new(&mut random, sample)
            .run(counts, cases)
            .map_err(|fault| format!("seed {seed}, round {round}: {fault}"))?;
        round += 1;
        if shown.elapsed() > Duration::from_secs(5) {
            shown = Instant::now();
            eprintln!(
                "{} of {cases} cases, {} s",
                counts.total(),
                begun.elapsed().as_secs()
            );
        }
    }
    Ok(())
}

/// Mostly small graphs, now and then one with about as many nodes or links as a listing or a survey may have, or one of `many`.
fn choose_graph(random: &mut Random) -> Sample {
    let n = match random.below(1000) {
        0..=19 => {
            let (n, links) = (127 + random.below(3), 2047 + random.below(3));
            let high = n / 4 + random.below(n / 2);
            return graphs::with_high(random, n, links, high);
        }
        20..=29 => {
            // so many links need 182 nodes; with few more a round takes less time
            let spread = if random.percent(80) { 40 } else { 843 };
            let (n, links) = (182 + random.below(spread), 16383 + random.below(4));
            return graphs::with_links(random, n, links);
        }
        30..=129 => return many::choose(random),
        130..=499 => 1 + random.below(12),
        500..=899 => 1 + random.below(40),
        900..=989 => 1 + random.below(130),
        990..=996 => 1 + random.below(400),
        _ => 1024 - random.below(3),
    };
    if n > 200 {
        let links = if random.percent(50) { 16384 } else { 2 * n };
        let high = random.below(1 + n / 8);
        return graphs::with_high(random, n, links, high);
    }
    match random.below(14) {
        0 => Sample::new("no link", n),
        1 => common::path(n),
        2 => common::cycle(n),
        3 => {
            let centre = random.below(n);
            common::star(n, centre)
        }
        4 => common::tree(random, n),
        5 => common::blocks(n, 1 + random.below(3)),
        6 => common::joined_blocks(n, 1 + random.below(4)),
        7 => common::complete_and_path(n, n * 2 / 3),
        8 => common::two_parts(n, random.below(n + 1)),
        9 => {
            let (links, high) = (random.below(3 * n + 1), random.below(n));
            graphs::with_high(random, n, links, high)
        }
        _ => {
            let chance = random.below(100);
            common::random_links(random, n, chance)
        }
    }
    .renumbered(random)
}

fn print_counts(counts: &Counts) {
    print!("{:10}{:>9}", "call", "answered");
    (1..counts.listings.len()).for_each(|number| print!("{number:>8}"));
    println!();
    for (call, row) in CALLS.iter().zip(&counts.calls) {
        print_row(call.name, row);
    }
    let sums = std::array::from_fn(|number| counts.calls.iter().map(|row| row[number]).sum());
    print_row("all", &sums);
    println!("the listings by what they say, a survey's pairs or a refusal's number:");
    print_row("listing", &counts.listings);
    println!("the surveys on which building was answered, by their nodes and by the links that a search goes among low nodes:");
    for (kind, count) in many::KINDS.iter().zip(counts.kinds) {
        println!("{kind:50}{count:>9}");
    }
    println!("the files that importing met, those that were accepted or refused 13 and some refused 3 or 8:");
    for (kind, count) in files::KINDS.iter().zip(counts.files) {
        println!("{kind:50}{count:>9}");
    }
    println!(
        "{} texts were read and imported as files, {} files exported and imported again",
        counts.read_and_imported, counts.exported_and_imported
    );
    counts.thresholds.print();
    counts.pairs.print();
}

fn print_row(name: &str, row: &Row) {
    print!("{name:10}{:>9}", row[0]);
    row[1..].iter().for_each(|count| print!("{count:>8}"));
    println!();
}
