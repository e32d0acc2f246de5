//! Asking a pair, and writing its walk.

use crate::survey::Graph;
use crate::tables::{check_table_lengths, find_low_nodes, threshold_in_force};
use crate::NONE;

#[derive(Debug, Clone, Copy, PartialEq, Eq)]
pub enum Route {
    Itself,
    Low,
    Through(u16),
    NoRoute,
    Link,
}

impl Route {
    /// Which of the five routes.
    pub fn number(self) -> u16 {
        match self {
            Route::Itself => 0,
            Route::Low => 1,
            Route::Through(_) => 2,
            Route::NoRoute => 3,
            Route::Link => 4,
        }
    }

    /// The hub that the route goes through, or 0.
    pub fn hub_number(self) -> u16 {
        match self {
            Route::Through(h) => h,
            Route::Itself | Route::Low | Route::NoRoute | Route::Link => 0,
        }
    }
}

#[derive(Debug, Clone, Copy, PartialEq, Eq)]
pub struct Answer {
    pub report: u16,
    pub route: Route,
}

/// The report of a pair with its route.
pub fn ask(
    n: usize,
    full: &[u16],
    low: &[u16],
    report: &[u16],
    a: usize,
    b: usize,
) -> Result<Answer, u8> {
    check_table_lengths(n, full, low, report)?;
    if a >= n || b >= n {
        return Err(10);
    }
    let report = report[a * n + b];
    let route = find_route(n, full, low, report, a, b).ok_or(11u8)?;
    Ok(Answer { report, route })
}

/// The route that attains the report of nodes a and b, if there is one.
fn find_route(
    n: usize,
    full: &[u16],
    low: &[u16],
    report: u16,
    a: usize,
    b: usize,
) -> Option<Route> {
    if a == b {
        return (report == 0).then_some(Route::Itself);
    }
    if report == NONE {
        return Some(Route::NoRoute);
    }
    // Always by link, whatever Full and Low hold.
    if report == 1 {
        return Some(Route::Link);
    }
    if low[a * n + b] == report {
        return Some(Route::Low);
    }
    (0..n)
        .find(|&h| {
            let (to_a, to_b) = (full[h * n + a], full[h * n + b]);
            // The sum of two entries may need more than 16 bits.
            to_a != NONE && to_b != NONE && u32::from(to_a) + u32::from(to_b) == u32::from(report)
        })
        .map(|h| Route::Through(h as u16))
}

/// Writes the walk of a pair into `walk`. The answer is the pair's.
#[allow(clippy::too_many_arguments)] // the lists are lent one by one
pub fn walk(
    n: usize,
    threshold: usize,
    starts: &[u32],
    neighbours: &[u16],
    full: &[u16],
    low: &[u16],
    report: &[u16],
    a: usize,
    b: usize,
    walk: &mut [u16],
) -> Result<Answer, u8> {
    // Only a walk given out writes anything else.
    walk.fill(NONE);
    let threshold = threshold_in_force(n, threshold)?;
    check_table_lengths(n, full, low, report)?;
    let graph = Graph::accept(n, starts, neighbours)?;
    let answer = ask(n, full, low, report, a, b)?;
    let nodes = match answer.route {
        Route::NoRoute => Vec::new(),
        Route::Itself => vec![a],
        Route::Link => walk_link(&graph, a, b)?,
        Route::Low => walk_low(&graph, threshold, low, a, b)?,
        Route::Through(h) => walk_through(&graph, full, h as usize, a, b)?,
    };
    // Judged last: a walk that fails is refused 11 in a short list too.
    if walk.len() < nodes.len() {
        return Err(8);
    }
    for (entry, &v) in walk.iter_mut().zip(&nodes) {
        *entry = v as u16;
    }
    Ok(answer)
}

/// The two nodes, which the lists must link.
fn walk_link(graph: &Graph, a: usize, b: usize) -> Result<Vec<usize>, u8> {
    if !graph.linked(a, b) {
        return Err(11);
    }
    Ok(vec![a, b])
}

/// The walk from a to b over low nodes.
fn walk_low(
    graph: &Graph,
    threshold: usize,
    low: &[u16],
    a: usize,
    b: usize,
) -> Result<Vec<usize>, u8> {
    let n = graph.node_count();
    let low_nodes = find_low_nodes(graph, threshold);
    let left: Vec<u16> = (0..n).map(|x| low[x * n + b]).collect();
    walk_part(graph, &low_nodes, &left, a, b).ok_or(11)
}

/// The walk from a to h, then the walk from b to h turned round.
fn walk_through(
    graph: &Graph,
    full: &[u16],
    h: usize,
    a: usize,
    b: usize,
) -> Result<Vec<usize>, u8> {
    let n = graph.node_count();
    let every_node = vec![true; n];
    let left = &full[h * n..(h + 1) * n];
    let mut nodes = walk_part(graph, &every_node, left, a, h).ok_or(11u8)?;
    let from_b = walk_part(graph, &every_node, left, b, h).ok_or(11u8)?;
    // Both parts end at h, which is listed once.
    nodes.extend(from_b.iter().rev().skip(1));
    Ok(nodes)
}

/// Takes exactly left[from] steps, each to the smallest neighbour in
/// `within` whose entry of `left` is one less, and must then stand at
/// `goal`. Entries fall step by step, so no node comes twice in a part.
fn walk_part(
    graph: &Graph,
    within: &[bool],
    left: &[u16],
    from: usize,
    goal: usize,
) -> Option<Vec<usize>> {
    let mut here = from;
    let mut nodes = vec![from];
    for remaining in (0..left[from]).rev() {
        let next = graph.neighbours(here).iter().find(|&&x| {
            let x = x as usize;
            within[x] && left[x] == remaining
        })?;
        here = *next as usize;
        nodes.push(here);
    }
    (here == goal).then_some(nodes)
}
