//! What the program `puxerdau` prints (docs/COMMANDS.md).

use crate::answers::{ask, walk, Answer, Route};
use crate::desk_lines::{find_stop, name_nodes, Source, FILE, LISTED, SURVEY};
use crate::desk_words::{understand, usage, Command, Question};
use crate::survey::{MAX_LINKS, MAX_NODES};
use crate::tables::{build, threshold_in_force};
use crate::verdict::{test, Verdict};
use crate::{file, listing, text};

const HELP: &str = include_str!("desk_help.txt");

/// The most bytes of a file that is imported.
const MAX_FILE: usize = 524_287;

/// What is printed for these words, without the program's name, and this
/// text on standard input.
pub fn desk(words: &[&[u8]], text: &[u8]) -> Vec<u8> {
    let answer = understand(words).and_then(|question| answer(&question, text));
    // Where there is no answer, one line says why.
    let printed = answer.unwrap_or_else(|line| line + "\n");
    printed.into_bytes()
}

/// The lines of the answer, or the line that says why there is none.
fn answer(question: &Question, text: &[u8]) -> Result<String, String> {
    match question.command {
        Command::Help => Ok(String::from(HELP)),
        Command::Import => Survey::import(text).map(|survey| survey.written(text::write)),
        Command::Reports => Survey::read(&LISTED, text)?.listing(question),
        other => Survey::read(&SURVEY, text)?.answer(other, question),
    }
}

struct Survey {
    n: usize,
    m: usize,
    starts: Vec<u32>,
    neighbours: Vec<u16>,
}

/// The tables built from a survey.
struct Tables {
    full: Vec<u16>,
    low: Vec<u16>,
    report: Vec<u16>,
    hubs: Vec<u16>,
}

type WriteText = fn(usize, &[u32], &[u16], &mut [u8]) -> Result<usize, u8>;

impl Survey {
    fn import(text: &[u8]) -> Result<Survey, String> {
        // The length alone decides, whatever the file says.
        if text.len() > MAX_FILE {
            let usage = usage(Command::Import);
            return Err(format!(
                "not taken: the file has more than {MAX_FILE} bytes (leave out comments); usage: {usage}"
            ));
        }
        Survey::read(&FILE, text)
    }

    fn read(source: &Source, text: &[u8]) -> Result<Survey, String> {
        let mut starts = vec![0; MAX_NODES + 1];
        let mut neighbours = vec![0; 2 * MAX_LINKS];
        let outcome = source
            .form
            .read(source.limits, text, &mut starts, &mut neighbours);
        let stop = find_stop(source, text);
        // The text is judged twice, once for the number and once for the place.
        assert_eq!(outcome.err(), stop.as_ref().map(|stop| stop.refusal));
        if let Some(stop) = stop {
            return Err(stop.show(source));
        }
        let (n, m) = outcome.expect("a text at which reading does not stop");
        Ok(Survey {
            n,
            m,
            starts,
            neighbours,
        })
    }

    /// The commands that read a survey, but for `reports`.
    fn answer(&self, command: Command, question: &Question) -> Result<String, String> {
        match command {
            Command::Pair => self.pair(question),
            Command::Walk => self.walk(question),
            Command::Test => self.test(question),
            Command::Hubs => self.hubs(question),
            Command::Check => Ok(format!("accepted nodes {} links {}\n", self.n, self.m)),
            Command::Write => Ok(self.written(text::write)),
            Command::Export => Ok(self.written(file::export)),
            other => unreachable!("{other:?} reads otherwise"),
        }
    }

    fn pair(&self, question: &Question) -> Result<String, String> {
        let tables = self.build(question)?;
        let [a, b] = self.nodes(question)?;
        let answer = ask(self.n, &tables.full, &tables.low, &tables.report, a, b);
        Ok(show_pair(a, b, answer.expect("built tables and two nodes")))
    }

    fn walk(&self, question: &Question) -> Result<String, String> {
        let tables = self.build(question)?;
        let [a, b] = self.nodes(question)?;
        // A report is at most 2 * 1023.
        let mut list = vec![0; 2 * MAX_NODES];
        let answer = walk(
            self.n,
            question.given_threshold(),
            &self.starts,
            &self.neighbours,
            &tables.full,
            &tables.low,
            &tables.report,
            a,
            b,
            &mut list,
        );
        let answer = answer.expect("built tables and two nodes");
        let mut lines = show_pair(a, b, answer);
        if answer.route != Route::NoRoute {
            let nodes = &list[..=usize::from(answer.report)];
            lines += &format!("walk{}\n", show_list(nodes));
        }
        Ok(lines)
    }

    fn test(&self, question: &Question) -> Result<String, String> {
        let threshold = question.given_threshold();
        let tested = test(self.n, threshold, &self.starts, &self.neighbours)
            .map_err(|refusal| refuse_threshold(question, refusal))?;
        let (verdict, meaning) = match tested.verdict {
            Verdict::Parted => ("parted", "some two nodes are joined by no chain of links"),
            Verdict::Long => (
                "long",
                "every two nodes are joined, and some two are 3 or more links apart",
            ),
            Verdict::Short => ("short", "every two nodes are at most 3 links apart"),
        };
        let searches = match tested.searches {
            1 => String::from("1 search"),
            count => format!("{count} searches"),
        };
        Ok(format!("{verdict} after {searches}\n{meaning}\n"))
    }

    fn hubs(&self, question: &Question) -> Result<String, String> {
        let hubs = self.build(question)?.hubs;
        let mut lines = match hubs.len() {
            0 => String::from("0 hubs"),
            1 => String::from("1 hub:"),
            count => format!("{count} hubs:"),
        };
        lines += &show_list(&hubs);
        let threshold = threshold_in_force(self.n, question.given_threshold())
            .expect("building has accepted it");
        let degrees = self.starts[..=self.n].windows(2);
        let high = degrees
            .filter(|pair| (pair[1] - pair[0]) as usize >= threshold)
            .count();
        let n = self.n;
        lines += &format!("\nhigh nodes {high} of {n} with {threshold} or more neighbours\n");
        Ok(lines)
    }

    fn listing(&self, question: &Question) -> Result<String, String> {
        let threshold = question.given_threshold();
        listing::list_survey(self.n, threshold, &self.starts, &self.neighbours)
            .map_err(|refusal| refuse_threshold(question, refusal))
    }

    /// The survey as a text or as a file.
    fn written(&self, write: WriteText) -> String {
        // No line has more than 24 bytes.
        let mut buffer = vec![0; 24 * (self.m + 1)];
        let length = write(self.n, &self.starts, &self.neighbours, &mut buffer)
            .expect("an accepted survey and a long buffer");
        buffer.truncate(length);
        String::from_utf8(buffer).expect("plain bytes")
    }

    fn build(&self, question: &Question) -> Result<Tables, String> {
        let n = self.n;
        let [mut full, mut low, mut report] = [(); 3].map(|()| vec![0; n * n]);
        let mut hubs = vec![0; n];
        let hub_count = build(
            n,
            question.given_threshold(),
            &self.starts,
            &self.neighbours,
            &mut full,
            &mut low,
            &mut report,
            &mut hubs,
        )
        .map_err(|refusal| refuse_threshold(question, refusal))?;
        hubs.truncate(hub_count);
        Ok(Tables {
            full,
            low,
            report,
            hubs,
        })
    }

    /// A and B; A is judged before B.
    fn nodes(&self, question: &Question) -> Result<[usize; 2], String> {
        let n = self.n as u64;
        match question.nodes.iter().find(|&&v| v >= n) {
            Some(v) => Err(format!("refused 10 at node {v}: {}", name_nodes(0, n))),
            None => Ok([0, 1].map(|place| question.nodes[place] as usize)),
        }
    }
}

/// Of a survey that was read, splitting can refuse the threshold only.
fn refuse_threshold(question: &Question, refusal: u8) -> String {
    assert_eq!(refusal, 14);
    let given = question.threshold;
    format!("refused 14 at threshold {given}: a threshold is at most 1024")
}

/// The report, how it is attained, and what it says.
fn show_pair(a: usize, b: usize, Answer { report, route }: Answer) -> String {
    let by = match route {
        Route::Itself => String::from("itself"),
        Route::Link => String::from("link"),
        Route::Low => String::from("low nodes"),
        Route::Through(h) => format!("hub {h}"),
        Route::NoRoute => {
            return format!("nodes {a} and {b} report no route\nno chain of links joins them\n")
        }
    };
    let needed = match report {
        1 => String::from("exactly 1 link is needed"),
        0 | 2 => format!("exactly {report} links are needed"),
        // Linked nodes report 1, so these need two links or more.
        _ => {
            let least = (report - 2).max(2);
            format!("at least {least} and at most {report} links are needed")
        }
    };
    format!("nodes {a} and {b} report {report} by {by}\n{needed}\n")
}

/// Each entry with a space before it.
fn show_list(list: &[u16]) -> String {
    list.iter().map(|entry| format!(" {entry}")).collect()
}
