//! Surveys for building, which searches from many nodes at once unless a search is deep: with about as many nodes as fill whole groups,
//! deep ones, parted ones, and ones whose first nodes are high, or all of them.

use comparison::common::{self, Random, Sample};
use comparison::graphs;
use reference::NONE;

/// So many sources are searched from at once. A search that goes as many links far is deep.
const GROUP: usize = 256;

/// What building can meet: `kind` of its table Low.
pub const KINDS: [&str; 6] = [
    "at most 256 nodes",
    "more, and none is low",
    "more, not deep",
    "more, just not deep",
    "more, deep only from a later low node",
    "more, deep from the first low node",
];

/// The kind of a built table Low. There a low node is 0 links from itself, and a high node is joined to none.
pub fn kind(n: usize, low: &[u16]) -> usize {
    if n <= GROUP {
        return 0;
    }
    let mut rows = low[..n * n]
        .chunks_exact(n)
        .enumerate()
        .filter(|(v, row)| row[*v] == 0)
        .map(|(_, row)| row);
    let Some(first) = rows.next() else {
        return 1;
    };
    let depth = |row: &[u16]| {
        let entries = row.iter().filter(|&&x| x != NONE);
        entries.max().map_or(0, |&x| usize::from(x))
    };
    let (first, later) = (depth(first), rows.map(depth).max().unwrap_or(0));
    if first >= GROUP {
        5
    } else if later >= GROUP {
        4
    } else if first.max(later) == GROUP - 1 {
        3
    } else {
        2
    }
}

/// Seldom as many nodes as there can be, since a round then takes long.
fn node_count(random: &mut Random) -> usize {
    match random.below(20) {
        0 => [767, 768, 769, 1023, 1024][random.below(5)],
        1..=10 => 511 + random.below(3),
        11..=15 => 257 + random.below(60),
        _ => 255 + random.below(3),
    }
}

pub fn choose(random: &mut Random) -> Sample {
    let n = node_count(random);
    let s = reference::threshold(n).expect("1 to 1,024 nodes");
    let sample = match random.below(15) {
        0 => common::path(n),
        1 => common::cycle(n),
        2 => long_tree(random, n),
        3 | 12 | 13 => tail(random, n),
        4 => two_paths(n, 1 + random.below(3)),
        5 => two_paths(n, 1 + random.below(n)),
        6 => common::complete_and_path(n, s + random.below(20)),
        7 => graphs::grid(n, 1 + random.below(40)),
        8 => common::blocks(n, n / 32),
        9 => common::joined_blocks(n, n / (2 + random.below(12))),
        // all nodes are high; with 511 nodes that would be too many links
        10 | 11 if n < 511 => ring(n, s.div_ceil(2)),
        _ => {
            let (links, high) = (2 * n + random.below(4 * n), random.below(n / 8));
            graphs::with_high(random, n, links, high)
        }
    };
    // as it is, its first node is mostly at an end, in a small part, or high
    if random.percent(50) {
        sample.renumbered(random)
    } else {
        sample
    }
}

/// A tree that is about half as deep as it has nodes.
fn long_tree(random: &mut Random, n: usize) -> Sample {
    let links: Vec<_> = (1..n)
        .map(|v| (v - 1 - random.below(v.min(3)), v))
        .collect();
    common::from_links("long tree", n, &links)
}

/// A path of 254 to 257 links from node 0 on; the other nodes are linked to nodes near its start.
fn tail(random: &mut Random, n: usize) -> Sample {
    let length = (255 + random.below(4)).min(n);
    let path = (1..length).map(|v| (v - 1, v));
    let others = (length..n).map(|v| (random.below(length / 2), v));
    let links: Vec<_> = path.chain(others).collect();
    common::from_links("tail", n, &links)
}

/// Two paths without a link between them, the first of `first` nodes.
fn two_paths(n: usize, first: usize) -> Sample {
    let links: Vec<_> = (1..n).filter(|&v| v != first).map(|v| (v - 1, v)).collect();
    common::from_links("two paths", n, &links)
}

/// Nodes in a circle, each linked to the given count of next ones.
fn ring(n: usize, next: usize) -> Sample {
    let mut sample = Sample::new("ring", n);
    for v in 0..n {
        (1..=next).for_each(|k| sample.link(v, (v + k) % n));
    }
    sample
}
