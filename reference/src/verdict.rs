//! The two-or-four test.

use crate::survey::Graph;
use crate::tables::{choose_hubs, find_low_nodes, threshold_in_force};
use crate::NONE;

#[derive(Debug, Clone, Copy, PartialEq, Eq)]
pub enum Verdict {
    Parted,
    Long,
    Short,
}

impl Verdict {
    /// Which of the three verdicts.
    pub fn number(self) -> u16 {
        match self {
            Verdict::Parted => 0,
            Verdict::Long => 1,
            Verdict::Short => 2,
        }
    }
}

#[derive(Debug, Clone, Copy, PartialEq, Eq)]
pub struct Tested {
    pub verdict: Verdict,
    pub searches: usize,
}

/// Searches from the chosen nodes and judges by what the searches reach.
pub fn test(n: usize, threshold: usize, starts: &[u32], neighbours: &[u16]) -> Result<Tested, u8> {
    let threshold = threshold_in_force(n, threshold)?;
    let graph = Graph::accept(n, starts, neighbours)?;
    let sources = choose_sources(&graph, threshold);
    let searches: Vec<Vec<u16>> = sources.iter().map(|&v| graph.all_distances(v)).collect();
    let misses_a_node = searches.iter().flatten().any(|&distance| distance == NONE);
    let goes_deeper = searches.iter().flatten().any(|&distance| distance > 2);
    let verdict = if misses_a_node {
        Verdict::Parted
    } else if goes_deeper {
        Verdict::Long
    } else {
        Verdict::Short
    };
    Ok(Tested {
        verdict,
        searches: sources.len(),
    })
}

/// The smallest low node and its neighbours; every hub if no node is low.
fn choose_sources(graph: &Graph, threshold: usize) -> Vec<usize> {
    let low_nodes = find_low_nodes(graph, threshold);
    let first_low = low_nodes.iter().position(|&is_low| is_low);
    let Some(v) = first_low else {
        return choose_hubs(graph, &low_nodes);
    };
    let mut sources = vec![v];
    sources.extend(graph.neighbours(v).iter().map(|&x| x as usize));
    sources
}
