//! The threshold, the hubs and the three tables.

use crate::survey::{check_node_count, Graph};
use crate::NONE;

/// The smallest s with s * s at least n * L(n), where L(n) is the count of
/// binary digits of n.
pub fn threshold(n: usize) -> Result<usize, u8> {
    check_node_count(n)?;
    let binary_digits = format!("{n:b}").len();
    let mut s = 0;
    while s * s < n * binary_digits {
        s += 1;
    }
    Ok(s)
}

/// The greatest threshold that a caller may give.
const MAX_THRESHOLD: usize = 1024;

/// Given as a threshold, this asks for the stored table's, s(n).
pub const STORED: usize = 0;

/// The threshold in force, for one that a caller gives. Judges 2, then 14.
pub fn threshold_in_force(n: usize, given: usize) -> Result<usize, u8> {
    let stored = threshold(n)?;
    if given > MAX_THRESHOLD {
        return Err(14);
    }
    Ok(if given == STORED { stored } else { given })
}

/// Builds the three tables and the hub list. The answer is the hub count.
#[allow(clippy::too_many_arguments)] // the lists are lent one by one
pub fn build(
    n: usize,
    threshold: usize,
    starts: &[u32],
    neighbours: &[u16],
    full: &mut [u16],
    low: &mut [u16],
    report: &mut [u16],
    hubs: &mut [u16],
) -> Result<usize, u8> {
    // Shadowed, so that nothing below sees what was given.
    let threshold = threshold_in_force(n, threshold)?;
    check_table_lengths(n, full, low, report)?;
    if hubs.len() < n {
        return Err(8);
    }
    let graph = Graph::accept(n, starts, neighbours)?;
    let low_nodes = find_low_nodes(&graph, threshold);
    let chosen = choose_hubs(&graph, &low_nodes);
    // Entries past the first n * n keep their values.
    fill_full(&graph, &chosen, full);
    fill_low(&graph, &low_nodes, low);
    fill_report(&graph, &chosen, full, low, report);
    hubs[..n].fill(NONE);
    for (place, &h) in chosen.iter().enumerate() {
        hubs[place] = h as u16;
    }
    Ok(chosen.len())
}

/// Judges 2, then 8 for a table shorter than n * n.
pub fn check_table_lengths(n: usize, full: &[u16], low: &[u16], report: &[u16]) -> Result<(), u8> {
    // n must be in range before n * n is formed.
    check_node_count(n)?;
    if [full, low, report].iter().any(|table| table.len() < n * n) {
        return Err(8);
    }
    Ok(())
}

/// Marks the nodes with fewer neighbours than the threshold in force.
pub fn find_low_nodes(graph: &Graph, threshold: usize) -> Vec<bool> {
    let nodes = 0..graph.node_count();
    nodes.map(|v| graph.degree(v) < threshold).collect()
}

/// The hubs in the order chosen.
pub fn choose_hubs(graph: &Graph, low_nodes: &[bool]) -> Vec<usize> {
    let n = graph.node_count();
    let mut uncovered: Vec<bool> = low_nodes.iter().map(|&is_low| !is_low).collect();
    let mut hubs = Vec::new();
    while uncovered.contains(&true) {
        let mut best = 0;
        for v in 1..n {
            // Only more is better, so a tie keeps the smallest number.
            if count_uncovered(graph, v, &uncovered) > count_uncovered(graph, best, &uncovered) {
                best = v;
            }
        }
        hubs.push(best);
        uncovered[best] = false;
        for &x in graph.neighbours(best) {
            uncovered[x as usize] = false;
        }
    }
    hubs
}

/// How many uncovered nodes the closed neighbourhood of `v` holds.
fn count_uncovered(graph: &Graph, v: usize, uncovered: &[bool]) -> usize {
    let own = usize::from(uncovered[v]);
    let others = graph.neighbours(v).iter();
    own + others.filter(|&&x| uncovered[x as usize]).count()
}

/// Row h holds the distances from h for every hub h; other rows are none.
fn fill_full(graph: &Graph, hubs: &[usize], full: &mut [u16]) {
    let n = graph.node_count();
    full[..n * n].fill(NONE);
    for &h in hubs {
        full[h * n..(h + 1) * n].copy_from_slice(&graph.all_distances(h));
    }
}

/// Row a holds the distances over low nodes only for every low a; other
/// rows are none.
fn fill_low(graph: &Graph, low_nodes: &[bool], low: &mut [u16]) {
    let n = graph.node_count();
    low[..n * n].fill(NONE);
    for a in 0..n {
        if low_nodes[a] {
            low[a * n..(a + 1) * n].copy_from_slice(&graph.distances(a, low_nodes));
        }
    }
}

/// 0 on the diagonal, 1 for every linked pair, the least candidate of every
/// other pair.
fn fill_report(graph: &Graph, hubs: &[usize], full: &[u16], low: &[u16], report: &mut [u16]) {
    let n = graph.node_count();
    for a in 0..n {
        for b in 0..n {
            report[a * n + b] = if a == b {
                0
            } else if graph.linked(a, b) {
                1
            } else {
                least_candidate(n, hubs, full, low, a, b)
            };
        }
    }
}

fn least_candidate(n: usize, hubs: &[usize], full: &[u16], low: &[u16], a: usize, b: usize) -> u16 {
    let mut least = low[a * n + b];
    for &h in hubs {
        let (to_a, to_b) = (full[h * n + a], full[h * n + b]);
        // A candidate with a none is left out; the others sum to at most
        // 2 * 1023.
        if to_a != NONE && to_b != NONE && to_a + to_b < least {
            least = to_a + to_b;
        }
    }
    least
}
