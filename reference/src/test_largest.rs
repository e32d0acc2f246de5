//! The largest survey, and what the Rattle program `test_largest` prints for it.

use crate::commands::{line, outcome, sum, test_numbers};
use crate::common::{Random, Sample};
use reference::{build, read, test, STORED};

const NODES: usize = 1024;
const LINKS: usize = 16384;

/// The text of a survey of 1,024 nodes and 16,384 links.
pub fn make() -> String {
    let mut random = Random::new(23);
    let sample = ring(&mut random).renumbered(&mut random);
    let mut links = sample.links();
    random.shuffle(&mut links);
    let mut text = format!("S,{NODES},{LINKS}\n");
    for (a, b) in links {
        let (a, b) = if random.percent(50) { (a, b) } else { (b, a) };
        text += &format!("L,{a},{b}\n");
    }
    text
}

/// Each node of a ring is linked to the 4 after it, and every 9th one to
/// more nodes near it, until there are enough links. Those nodes are high.
fn ring(random: &mut Random) -> Sample {
    let mut sample = Sample::new("ring", NODES);
    for v in 0..NODES {
        for step in 1..=4 {
            sample.link(v, (v + step) % NODES);
        }
    }
    let mut count = 4 * NODES;
    let mut centres = (0..NODES).step_by(9).cycle();
    while count < LINKS {
        let centre = centres.next().expect("a cycle has no end");
        let other = (centre + 5 + random.below(300)) % NODES;
        if !sample.linked[centre][other] {
            sample.link(centre, other);
            count += 1;
        }
    }
    sample
}

/// The outcomes of reading, building and testing, one per line.
pub fn run(text: &[u8]) -> String {
    let (mut starts, mut neighbours) = (vec![7; NODES + 1], vec![7; 2 * LINKS]);
    let answer = read(text, &mut starts, &mut neighbours);
    // A refused reading leaves no survey, and the other calls are refused.
    let n = answer.map_or(0, |(n, _)| n);
    let answer = answer.map(|(n, m)| vec![n as u64, m as u64]);
    let sums = [sum(&starts), sum(&neighbours)];
    let mut lines = line('R', &outcome(answer, 2, &sums));

    let [mut full, mut low, mut report] = [(); 3].map(|()| vec![7; NODES * NODES]);
    let mut hubs = vec![7; NODES];
    let answer = build(
        n,
        STORED,
        &starts,
        &neighbours,
        &mut full,
        &mut low,
        &mut report,
        &mut hubs,
    );
    let sums = [&full, &low, &report, &hubs].map(|list| sum(list));
    lines += &line(
        'B',
        &outcome(answer.map(|count| vec![count as u64]), 1, &sums),
    );

    let answer = test(n, STORED, &starts, &neighbours);
    lines + &line('T', &outcome(answer.map(test_numbers), 2, &[]))
}
