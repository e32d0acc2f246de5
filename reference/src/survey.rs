//! The graph of a survey: acceptance of the two lists, neighbours, and
//! breadth-first search.

use crate::NONE;
use std::collections::VecDeque;

pub const MAX_NODES: usize = 1024;
pub const MAX_LINKS: usize = 16384;

/// Refusal 2: the node count is outside 1 to 1,024.
pub fn check_node_count(n: usize) -> Result<(), u8> {
    if (1..=MAX_NODES).contains(&n) {
        Ok(())
    } else {
        Err(2)
    }
}

/// Judges 2, then 8 for `starts`, then 9.
pub fn accept(n: usize, starts: &[u32], neighbours: &[u16]) -> Result<(), u8> {
    Graph::accept(n, starts, neighbours).map(|_| ())
}

/// A graph whose lists have been accepted.
pub struct Graph<'a> {
    n: usize,
    starts: &'a [u32],
    neighbours: &'a [u16],
}

impl<'a> Graph<'a> {
    /// Judges 2, then 8 for `starts`, then 9.
    pub fn accept(n: usize, starts: &'a [u32], neighbours: &'a [u16]) -> Result<Self, u8> {
        check_node_count(n)?;
        if starts.len() < n + 1 {
            return Err(8);
        }
        // Entries past the first n + 1 may hold anything.
        let starts = &starts[..n + 1];
        if !starts_are_valid(starts, neighbours.len()) {
            return Err(9);
        }
        let graph = Graph {
            n,
            starts,
            neighbours,
        };
        if graph.neighbours_are_valid() && graph.is_symmetric() {
            Ok(graph)
        } else {
            Err(9)
        }
    }

    pub fn node_count(&self) -> usize {
        self.n
    }

    pub fn link_count(&self) -> usize {
        self.starts[self.n] as usize / 2
    }

    /// The neighbours of node `v`, ascending.
    pub fn neighbours(&self, v: usize) -> &'a [u16] {
        &self.neighbours[self.starts[v] as usize..self.starts[v + 1] as usize]
    }

    pub fn degree(&self, v: usize) -> usize {
        self.neighbours(v).len()
    }

    /// Whether each of the two nodes is among the other's own neighbours.
    pub fn linked(&self, a: usize, b: usize) -> bool {
        self.neighbours(a).contains(&(b as u16)) && self.neighbours(b).contains(&(a as u16))
    }

    /// The fewest links from `start` to each node over nodes of `within`
    /// only; none where there is no such chain. `start` is in `within`.
    pub fn distances(&self, start: usize, within: &[bool]) -> Vec<u16> {
        let mut distances = vec![NONE; self.n];
        let mut queue = VecDeque::new();
        distances[start] = 0;
        queue.push_back(start);
        while let Some(v) = queue.pop_front() {
            for &x in self.neighbours(v) {
                let x = x as usize;
                if within[x] && distances[x] == NONE {
                    distances[x] = distances[v] + 1;
                    queue.push_back(x);
                }
            }
        }
        distances
    }

    /// The fewest links from `start` to each node of the whole graph.
    pub fn all_distances(&self, start: usize) -> Vec<u16> {
        self.distances(start, &vec![true; self.n])
    }

    /// Each node's neighbours are other nodes, strictly ascending.
    fn neighbours_are_valid(&self) -> bool {
        (0..self.n).all(|v| {
            let own = self.neighbours(v);
            own.windows(2).all(|pair| pair[0] < pair[1])
                && own
                    .iter()
                    .all(|&x| (x as usize) < self.n && x as usize != v)
        })
    }

    /// b stands at a exactly when a stands at b. Needs valid neighbours.
    fn is_symmetric(&self) -> bool {
        (0..self.n).all(|a| {
            self.neighbours(a)
                .iter()
                .all(|&b| self.neighbours(b as usize).contains(&(a as u16)))
        })
    }
}

/// First 0, never falling, the last 2m with m at most 16,384, and within
/// the neighbour list.
fn starts_are_valid(starts: &[u32], neighbours_len: usize) -> bool {
    let last = starts[starts.len() - 1] as usize;
    starts[0] == 0
        && starts.windows(2).all(|pair| pair[0] <= pair[1])
        && last & 1 == 0
        && last / 2 <= MAX_LINKS
        && last <= neighbours_len
}
