//! What is promised of tables, walks and tests in terms of the graph alone, whatever the threshold.

use comparison::common::{self, Sample, UNJOINED};
use reference::{Answer, Route, Verdict, NONE};

/// With more nodes it would take long to work out the fewest links.
const MOST_NODES: usize = 40;

/// The fewest links between each two nodes of a small graph.
fn fewest_links(sample: &Sample) -> Option<Vec<Vec<usize>>> {
    let small = sample.n <= MOST_NODES;
    small.then(|| common::distances(sample, &vec![true; sample.n]))
}

/// Whether each report of built tables lies between the fewest links and two more, and is none where no chain joins the nodes.
pub fn check_reports(sample: &Sample, report: &[u16]) -> Result<(), String> {
    let fewest = fewest_links(sample);
    for (place, &least) in fewest.iter().flatten().flatten().enumerate() {
        let report = report[place];
        let allowed = if least == UNJOINED {
            report == NONE
        } else {
            (least..=least + 2).contains(&usize::from(report))
        };
        if !allowed {
            return Err(format!(
                "report {place} is {report}, and {least} the fewest"
            ));
        }
    }
    Ok(())
}

/// Whether a test says "parted" exactly where some two nodes are, "short" only where all are within three links, and "long" only where
/// some two are not within two.
pub fn check_verdict(sample: &Sample, verdict: Verdict) -> Result<(), String> {
    let Some(fewest) = fewest_links(sample) else {
        return Ok(());
    };
    let most = fewest.into_iter().flatten().max().unwrap_or(0);
    let right = match verdict {
        Verdict::Parted => most == UNJOINED,
        Verdict::Long => most != UNJOINED && most > 2,
        Verdict::Short => most < 4,
    };
    right
        .then_some(())
        .ok_or_else(|| format!("{verdict:?} where {most} links are the most"))
}

/// Whether a walk that is given out is a chain of as many links as its report.
pub fn check_walk(
    sample: &Sample,
    (a, b): (usize, usize),
    answer: Result<Answer, u8>,
    walk: &[u16],
) -> Result<(), String> {
    let Ok(Answer { report, route }) = answer else {
        return Ok(());
    };
    let right = route == Route::NoRoute
        || common::is_chain(sample, &walk[..=usize::from(report)], a, b, report);
    right
        .then_some(())
        .ok_or_else(|| format!("the walk of {a} and {b} is no chain of {report} links"))
}

/// Whether a walk by built tables and their own split is not refused 11.
pub fn check_built_walk(answer: Result<Answer, u8>) -> Result<(), String> {
    match answer {
        Err(11) => Err("a walk by built tables is refused 11".into()),
        _ => Ok(()),
    }
}
