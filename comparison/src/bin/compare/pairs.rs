//! What asking and walking pairs of nodes met: routes, reports of 1, and the tables that were lent.

use crate::tables::{self, Kind};
use reference::{Answer, Route};

/// The routes in the order of their numbers.
const ROUTES: [&str; 5] = ["itself", "low", "hub", "none", "link"];

/// Pairs that were asked, and pairs that were walked, by the length of the walk list.
const LENGTHS: [&str; 6] = ["asked", "0", "1", "2", "3", "more"];

const NODES: [&str; 2] = ["not linked", "linked"];

/// What comes of a report of 0 between different nodes.
const ZEROS: [&str; 3] = ["asked, answered", "asked, refused", "walked, refused"];

/// What a pair was asked or walked with, and what came of it.
pub struct Pair {
    pub tables: Kind,
    /// Whether the survey links the nodes, if its own lists, nodes and count of nodes were lent.
    pub linked: Option<bool>,
    pub nodes: (usize, usize),
    /// The entry of Report for the two, if there is one.
    pub report: Option<u16>,
    /// What asking answers.
    pub asked: Result<Answer, u8>,
    /// The length of the walk list, and what writing the walk answers.
    pub walked: Option<(usize, Result<Answer, u8>)>,
}

#[derive(Default)]
pub struct Met {
    /// Answers of asking and of walking, by their routes.
    routes: [[u64; ROUTES.len()]; 2],
    /// Reports of 1 between different nodes with the survey's own lists, answered or refused: of nodes that are not linked, and of nodes
    /// that are.
    ones: [[u64; LENGTHS.len()]; 2],
    /// Linked nodes that were answered by another route: asked and walked.
    others: [u64; 2],
    /// Reports of 1 at a node itself, refused 11: asked and walked.
    at_itself: [u64; 2],
    /// Reports of 0 between different nodes. No walk is given out for one.
    zeros: [u64; ZEROS.len()],
    tables: [u64; tables::KINDS.len()],
}

impl Met {
    pub fn count(&mut self, pair: &Pair) {
        self.tables[pair.tables as usize] += 1;
        let call = usize::from(pair.walked.is_some());
        let answer = pair.walked.map_or(pair.asked, |(_, answer)| answer);
        if let Ok(answer) = answer {
            self.routes[call][usize::from(answer.route.number())] += 1;
        }
        match (pair.report, pair.nodes.0 == pair.nodes.1, answer) {
            (Some(1), true, Err(11)) => self.at_itself[call] += 1,
            (Some(0), false, Ok(_)) if pair.walked.is_none() => self.zeros[0] += 1,
            (Some(0), false, Err(11)) => self.zeros[1 + call] += 1,
            _ => {}
        }
        let (Some(linked), Ok(asked)) = (pair.linked, pair.asked) else {
            return;
        };
        // a threshold that is refused, or too many links for a survey
        if matches!(answer, Err(9 | 14)) {
            return;
        }
        if asked.route == Route::Link {
            let most = LENGTHS.len() - 1;
            let place = pair.walked.map_or(0, |(length, _)| most.min(1 + length));
            self.ones[usize::from(linked)][place] += 1;
        } else if linked && answer.is_ok() {
            self.others[call] += 1;
        }
    }

    /// What was met how often, by name.
    pub fn named(&self) -> Vec<(String, u64)> {
        let mut all = Vec::new();
        for (call, counts) in ["ask", "walk"].iter().zip(self.routes) {
            let names = ROUTES.map(|route| format!("{call} by {route}"));
            all.extend(names.into_iter().zip(counts));
        }
        for (nodes, counts) in NODES.iter().zip(self.ones) {
            let names = LENGTHS.map(|length| format!("report 1 of nodes {nodes}: {length}"));
            all.extend(names.into_iter().zip(counts));
        }
        let others = ["ask", "walk"].map(|call| format!("{call} of linked nodes by another route"));
        all.extend(others.into_iter().zip(self.others));
        let at_itself =
            ["ask", "walk"].map(|call| format!("{call} of a report of 1 at a node itself"));
        all.extend(at_itself.into_iter().zip(self.at_itself));
        let zeros = ZEROS.map(|what| format!("a report of 0 between different nodes {what}"));
        all.extend(zeros.into_iter().zip(self.zeros));
        let tables = tables::KINDS.map(|kind| format!("tables {kind}"));
        all.extend(tables.into_iter().zip(self.tables));
        all
    }

    pub fn print(&self) {
        println!("the answers of asking and walking, by their routes:");
        print_table(&ROUTES, &["ask", "walk"], &self.routes);
        println!("reports of 1 between different nodes, with the survey's own lists and count of nodes: asked, and walked by the walk list's");
        println!("length, answered or refused:");
        print_table(&LENGTHS, &NODES, &self.ones);
        let [asked, walked] = self.others;
        println!("linked nodes answered by another route: {asked} asked, {walked} walked");
        let [asked, walked] = self.at_itself;
        println!("reports of 1 at a node itself, refused 11: {asked} asked, {walked} walked");
        let [answered, refused, walked] = self.zeros;
        println!("reports of 0 between different nodes: {answered} asked and answered, {refused} asked and {walked} walked, refused 11");
        println!("the tables that asking and walking were lent:");
        for (kind, count) in tables::KINDS.iter().zip(self.tables) {
            println!("{kind:50}{count:>9}");
        }
    }
}

pub fn print_table<const N: usize>(columns: &[&str; N], names: &[&str], rows: &[[u64; N]]) {
    print!("{:10}", "");
    columns.iter().for_each(|column| print!("{column:>9}"));
    println!();
    for (name, row) in names.iter().zip(rows) {
        print!("{name:10}");
        row.iter().for_each(|count| print!("{count:>9}"));
        println!();
    }
}
