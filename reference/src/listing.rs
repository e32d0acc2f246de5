//! What the program `reports` prints.

use crate::answers::{ask, Answer, Route};
use crate::tables::{build, STORED};
use crate::text::{read_within, Limits};

/// The limits of a listing.
pub const LIMITS: Limits = Limits {
    nodes: 128,
    links: 2048,
};

/// The whole output for this standard input.
pub fn reports(text: &[u8]) -> Vec<u8> {
    match list_pairs(text) {
        Ok(lines) => lines.into_bytes(),
        Err(refusal) => format!("X,{refusal}\n").into_bytes(),
    }
}

fn list_pairs(text: &[u8]) -> Result<String, u8> {
    let mut starts = vec![0; LIMITS.nodes + 1];
    let mut neighbours = vec![0; 2 * LIMITS.links];
    let (n, _) = read_within(&LIMITS, text, &mut starts, &mut neighbours)?;
    list_survey(n, STORED, &starts, &neighbours)
}

/// The listing of a survey within the limits, by the given threshold.
pub fn list_survey(
    n: usize,
    threshold: usize,
    starts: &[u32],
    neighbours: &[u16],
) -> Result<String, u8> {
    let (mut full, mut low, mut report) = (vec![0; n * n], vec![0; n * n], vec![0; n * n]);
    let mut hubs = vec![0; n];
    let hub_count = build(
        n,
        threshold,
        starts,
        neighbours,
        &mut full,
        &mut low,
        &mut report,
        &mut hubs,
    )?;
    let mut lines = format!("R,{n},{hub_count}\n");
    for a in 0..n {
        for b in a + 1..n {
            let answer = ask(n, &full, &low, &report, a, b)?;
            lines.push_str(&format!("P,{a},{b},{}\n", show_answer(answer)));
        }
    }
    Ok(lines)
}

/// The report and the route as two fields.
fn show_answer(answer: Answer) -> String {
    match answer.route {
        Route::Link => format!("{},link", answer.report),
        Route::Low => format!("{},low", answer.report),
        Route::Through(h) => format!("{},{h}", answer.report),
        Route::NoRoute => String::from("-,-"),
        // Pairs have a < b, so this is never printed.
        Route::Itself => format!("{},itself", answer.report),
    }
}
