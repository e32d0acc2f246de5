//! The speed of importing and exporting planners' files: beside reading and writing the same survey's text, beside the second
//! implementation and careful Rust, with comments and with links given from both ends.

use crate::{surveys, verdict, PASSES};
use comparison::common::{file_of, Sample};
use comparison::timing::least;
use comparison::{careful, proved};
use std::hint::black_box;
use std::time::Duration;

/// Stands before every line of a file with many comments.
const COMMENT: &str = "c a comment of the planners before each line, about as long as they are\n";

/// Seconds of the proved library, the second implementation and careful Rust.
type Three = [f64; 3];

pub struct FileRow {
    survey: String,
    n: usize,
    links: usize,
    /// The proved library's reading and writing back of the survey's text.
    read: f64,
    write: f64,
    import: Three,
    export: Three,
    bytes: usize,
    /// The file with many comments.
    commented: Three,
    commented_bytes: usize,
    /// The file with each link from both ends, where so many lines are allowed.
    doubled: Option<Three>,
}

/// Measures the surveys that the other calls are measured on.
pub fn measure_all(budget: Duration) -> Vec<FileRow> {
    surveys()
        .map(|sample| measure(&sample, budget / PASSES))
        .collect()
}

/// The file with each link from both ends; the answer is nothing where that is too many lines.
fn doubled(sample: &Sample) -> Option<Vec<u8>> {
    let links = sample.links();
    let turned = links.iter().map(|&(a, b)| (b, a));
    let both: Vec<_> = links.iter().copied().chain(turned).collect();
    (both.len() <= 16384).then(|| file_of(sample.n, &both).into_bytes())
}

fn commented(file: &str) -> Vec<u8> {
    let lines = file.split_inclusive('\n');
    let lines = lines.flat_map(|line| [COMMENT, line]);
    lines.collect::<String>().into_bytes()
}

/// What importing is lent.
struct Lists {
    starts: Vec<u32>,
    neighbours: Vec<u16>,
}

impl Lists {
    /// The least of the old times and new ones.
    fn import(&mut self, old: Three, file: &[u8], budget: Duration) -> Three {
        let Lists { starts, neighbours } = self;
        [
            old[0].min(least(budget, || {
                black_box(proved::import(black_box(file), starts, neighbours));
            })),
            old[1].min(least(budget, || {
                let _ = black_box(reference::import(black_box(file), starts, neighbours));
            })),
            old[2].min(least(budget, || {
                let _ = black_box(careful::import(black_box(file), starts, neighbours));
            })),
        ]
    }

    /// Whether careful Rust answers and leaves what the second implementation does.
    fn check(&mut self, file: &[u8]) {
        let (mut starts, mut neighbours) = (self.starts.clone(), self.neighbours.clone());
        let one = careful::import(file, &mut starts, &mut neighbours);
        let other = reference::import(file, &mut self.starts, &mut self.neighbours);
        assert!(one == other && one.is_ok());
        assert!(starts == self.starts && neighbours == self.neighbours);
    }
}

fn measure(sample: &Sample, budget: Duration) -> FileRow {
    const SLOW: Three = [f64::MAX; 3];
    let n = sample.n;
    let (starts, neighbours) = sample.lists();
    let (text, file) = (sample.text().into_bytes(), sample.file());
    let commented = commented(&file);
    let doubled = doubled(sample);
    let file = file.into_bytes();
    let mut buffer = vec![1; 200_000];
    assert_eq!(
        careful::export(n, &starts, &neighbours, &mut buffer),
        Ok(file.len())
    );
    assert!(buffer[..file.len()] == file);
    // long enough for each link from both ends
    let mut lists = Lists {
        starts: vec![1; n + 1],
        neighbours: vec![1; 2 * neighbours.len()],
    };
    for file in [&file, &commented].into_iter().chain(&doubled) {
        lists.check(file);
    }
    let mut row = FileRow {
        survey: sample.name.trim_end_matches(&format!(" {n}")).into(),
        n,
        links: neighbours.len() / 2,
        read: f64::MAX,
        write: f64::MAX,
        import: SLOW,
        export: SLOW,
        bytes: file.len(),
        commented: SLOW,
        commented_bytes: commented.len(),
        doubled: doubled.as_ref().map(|_| SLOW),
    };
    for _ in 0..PASSES {
        row.read = row.read.min(least(budget, || {
            let (starts, neighbours) = (&mut lists.starts, &mut lists.neighbours);
            black_box(proved::read(black_box(&text), starts, neighbours));
        }));
        row.write = row.write.min(least(budget, || {
            black_box(proved::write(n, &starts, &neighbours, &mut buffer));
        }));
        row.export = [
            row.export[0].min(least(budget, || {
                black_box(proved::export(n, &starts, &neighbours, &mut buffer));
            })),
            row.export[1].min(least(budget, || {
                let _ = black_box(reference::export(n, &starts, &neighbours, &mut buffer));
            })),
            row.export[2].min(least(budget, || {
                let _ = black_box(careful::export(n, &starts, &neighbours, &mut buffer));
            })),
        ];
        row.import = lists.import(row.import, &file, budget);
        row.commented = lists.import(row.commented, &commented, budget);
        if let (Some(old), Some(file)) = (row.doubled, &doubled) {
            row.doubled = Some(lists.import(old, file, budget));
        }
    }
    row
}

/// The times of the second implementation and of careful Rust, each divided by the proved library's.
fn others(three: &Three) -> String {
    let [proved, reference, careful] = three;
    format!("{:>9.2}x{:>8.2}x", reference / proved, careful / proved)
}

fn print_names(row: &FileRow) {
    print!("{:8}{:>6}{:>7}", row.survey, row.n, row.links);
}

/// Importing and exporting; then files with many comments, and with each link from both ends; then how the times grow.
pub fn print(rows: &[FileRow]) {
    println!("files: the time of reading the survey's text, of the second implementation and of careful Rust, divided by importing's;");
    println!("the time of writing back, of the second implementation and of careful Rust, divided by exporting's");
    println!(
        "{:8}{:>6}{:>7}{:>12}{:>8}{:>10}{:>9}{:>12}{:>8}{:>10}{:>9}",
        "survey",
        "nodes",
        "links",
        "import, us",
        "read",
        "second",
        "careful",
        "export, us",
        "write",
        "second",
        "careful"
    );
    for row in rows {
        let (import, export) = (row.import[0], row.export[0]);
        print_names(row);
        print!(
            "{:>12.2}{:>7.2}x{}",
            import * 1e6,
            row.read / import,
            others(&row.import)
        );
        println!(
            "{:>12.2}{:>7.2}x{}",
            export * 1e6,
            row.write / export,
            others(&row.export)
        );
    }
    println!("a file with a comment before each line, and one with each link from both ends, beside the same two");
    println!(
        "{:8}{:>6}{:>7}{:>14}{:>8}{:>10}{:>9}{:>15}{:>10}{:>9}",
        "survey",
        "nodes",
        "links",
        "comments, us",
        "MB/s",
        "second",
        "careful",
        "both ends, us",
        "second",
        "careful"
    );
    for row in rows {
        print_names(row);
        let megabytes = row.commented_bytes as f64 / row.commented[0] / 1e6;
        print!(
            "{:>14.2}{megabytes:>8.0}{}",
            row.commented[0] * 1e6,
            others(&row.commented)
        );
        match &row.doubled {
            Some(doubled) => println!("{:>15.2}{}", doubled[0] * 1e6, others(doubled)),
            None => println!("{:>15}", "-"),
        }
    }
    println!("growth: nanoseconds for each node and link end (n + 2m), and for each byte of a file and of its comments");
    println!(
        "{:8}{:>6}{:>7}{:>9}{:>9}{:>9}{:>9}",
        "survey", "nodes", "links", "import", "export", "byte", "comment"
    );
    for row in rows {
        let ends = (row.n + 2 * row.links) as f64;
        let comments = (row.commented_bytes - row.bytes) as f64;
        print_names(row);
        println!(
            "{:>9.3}{:>9.3}{:>9.3}{:>9.3}",
            row.import[0] * 1e9 / ends,
            row.export[0] * 1e9 / ends,
            row.import[0] * 1e9 / row.bytes as f64,
            (row.commented[0] - row.import[0]) * 1e9 / comments
        );
    }
}

/// The target on every survey, by the file that is slowest beside careful Rust.
pub fn print_least(rows: &[FileRow]) {
    let of_row = |row: &'_ FileRow| {
        let doubled = row
            .doubled
            .map(|three| ("import of links from both ends", three));
        let others = [
            ("import", row.import),
            ("import with comments", row.commented),
            ("export", row.export),
        ];
        let names = (row.survey.clone(), row.n, row.links);
        let all = others.into_iter().chain(doubled);
        all.map(move |(name, [proved, _, careful])| (careful / proved, name, names.clone()))
            .collect::<Vec<_>>()
    };
    let all = rows.iter().flat_map(of_row);
    let least = all.min_by(|one, other| one.0.total_cmp(&other.0));
    let (value, name, (survey, n, links)) = least.expect("there are rows");
    println!("target on every survey: importing and exporting beside careful Rust, times as fast");
    println!("  least on {survey}: {n} nodes, {links} links");
    verdict(name, value, 0.9, true);
}
