//! One round: all calls on variants of one graph, its text, its file, its lists and its tables.

use crate::lent::Lent;
use crate::lists::{self, Lists};
use crate::pairs::Pair;
use crate::tables::{self, Kind, Tables};
use crate::texts::Form;
use crate::thresholds::{self, Split, Splitting};
use crate::{demand, files, many, texts, Counts};
use comparison::common::{Random, Sample};
use comparison::{codes, header, proved};
use reference::Answer;

pub struct Call {
    pub name: &'static str,
    /// How often a round makes it, unless there are many nodes.
    turns: usize,
    /// The refusals that it can give.
    pub refusals: &'static [usize],
}

const fn call(name: &'static str, turns: usize, refusals: &'static [usize]) -> Call {
    Call {
        name,
        turns,
        refusals,
    }
}

pub const CALLS: [Call; 11] = [
    call("threshold", 1, &[2]),
    call("read", 10, &[1, 2, 3, 4, 5, 6, 7, 8]),
    call("write", 6, &[2, 8, 9, 12]),
    call("import", 10, &[2, 3, 4, 5, 8, 13]),
    call("export", 6, &[2, 8, 9, 12]),
    call("accept", 6, &[2, 8, 9]),
    call("build", 4, &[2, 8, 9, 14]),
    call("ask", 10, &[2, 8, 10, 11]),
    call("walk", 10, &[2, 8, 9, 10, 11, 14]),
    call("test", 4, &[2, 8, 9, 14]),
    call("list", 4, &[12]),
];

/// The refusals that a listing can name.
pub const LISTED: [usize; 7] = [1, 2, 3, 4, 5, 6, 7];

const JUNK_LONG: usize = 1 << 20;

pub struct Round<'a> {
    random: &'a mut Random,
    sample: Sample,
    /// The survey's lists and tables; the tables are all zero where the graph has too many links for a survey.
    starts: Vec<u32>,
    neighbours: Vec<u16>,
    built: [Vec<u16>; 3],
    /// The threshold that the tables were built by.
    threshold: usize,
}

type Outcome = Result<u64, String>;

/// Reading a text, or importing a file, by the proved library and by the second implementation.
type ProvedReading = fn(&[u8], &mut [u32], &mut [u16]) -> u64;
type Reading = fn(&[u8], &mut [u32], &mut [u16]) -> Result<(usize, usize), u8>;

/// Writing a text, or exporting a file.
type ProvedWriting = fn(usize, &[u32], &[u16], &mut [u8]) -> u64;
type Writing = fn(usize, &[u32], &[u16], &mut [u8]) -> Result<usize, u8>;

/// What both made of a text or a file.
#[derive(PartialEq)]
struct Read {
    code: u64,
    answer: Result<(usize, usize), u8>,
    starts: Vec<u32>,
    neighbours: Vec<u16>,
}

/// What both answered to a walk and left in the list.
struct Walked {
    code: u64,
    answer: Result<Answer, u8>,
    walk: Vec<u16>,
}

/// What both were lent and what they left in the buffer.
struct Written {
    code: u64,
    answer: Result<usize, u8>,
    n: usize,
    lists: Lists,
    buffer: Vec<u8>,
}

impl<'a> Round<'a> {
    pub fn new(random: &'a mut Random, sample: Sample) -> Self {
        let (starts, neighbours) = sample.lists();
        let n = sample.n;
        let [mut full, mut low, mut report] = [(); 3].map(|()| vec![0; n * n]);
        let mut hubs = vec![0; n];
        let degree = some_degree(random, &starts);
        let threshold = thresholds::taken(random, n, degree);
        // refused where there are too many links
        let _ = reference::build(
            n,
            threshold,
            &starts,
            &neighbours,
            &mut full,
            &mut low,
            &mut report,
            &mut hubs,
        );
        Round {
            random,
            sample,
            starts,
            neighbours,
            built: [full, low, report],
            threshold,
        }
    }

    /// Makes the round's calls and counts their outcomes, up to a total.
    pub fn run(&mut self, counts: &mut Counts, cases: u64) -> Result<(), String> {
        for (place, call) in CALLS.iter().enumerate() {
            for _ in 0..self.turns(call) {
                if counts.total() >= cases {
                    return Ok(());
                }
                let code = self.call(place, counts).map_err(|fault| {
                    format!("{} on graph {}: {fault}", call.name, self.sample.name)
                })?;
                let refusal = header::REFUSAL.of(code) as usize;
                if refusal != 0 && !call.refusals.contains(&refusal) {
                    return Err(format!("{} was refused {refusal}", call.name));
                }
                counts.calls[place][refusal] += 1;
            }
        }
        Ok(())
    }

    /// With many nodes mostly building and testing, since copies of large tables take long.
    fn turns(&self, call: &Call) -> usize {
        if self.sample.n <= 256 || ["build", "test"].contains(&call.name) {
            call.turns
        } else {
            call.turns.min(2)
        }
    }

    fn call(&mut self, place: usize, counts: &mut Counts) -> Outcome {
        match place {
            0 => self.threshold(),
            1 => self.read(counts),
            2 => self.write(),
            3 => self.import(counts),
            4 => self.export(counts),
            5 => self.accept(),
            6 => self.build(counts),
            7 => self.ask(counts),
            8 => self.walk(counts),
            9 => self.test(counts),
            _ => self.list(counts),
        }
    }

    /// The survey's lists, as they are, with more behind them, or damaged.
    fn lists(&mut self) -> Lists {
        let mut lists = Lists {
            starts: self.starts.clone(),
            neighbours: self.neighbours.clone(),
        };
        match self.random.below(10) {
            0..=3 => {}
            4..=5 => lists.extend(self.random),
            6 => {
                lists.extend(self.random);
                lists.damage(self.random, self.sample.n);
            }
            _ => lists.damage(self.random, self.sample.n),
        }
        lists
    }

    /// Whether they are the survey's own lists, maybe with more behind them.
    fn are_own(&self, n: usize, lists: &Lists) -> bool {
        n == self.sample.n
            && lists.starts.starts_with(&self.starts)
            && lists.neighbours.starts_with(&self.neighbours)
    }

    fn any_threshold(&mut self) -> usize {
        let degree = some_degree(self.random, &self.starts);
        thresholds::any(self.random, self.sample.n, degree)
    }

    /// Mostly the threshold of the tables, else any, one at the degree of a node, by which a few nodes may be split otherwise, or one by
    /// which more nodes are low, so that walks by low nodes are still given out.
    fn walk_threshold(&mut self) -> usize {
        match self.random.below(10) {
            0 => self.any_threshold(),
            1 | 2 => {
                let degree = some_degree(self.random, &self.starts);
                degree + self.random.below(2)
            }
            3 | 4 => thresholds::MOST,
            _ => self.threshold,
        }
    }

    fn threshold(&mut self) -> Outcome {
        let n = match self.random.below(3) {
            0 => lists::node_count(self.random, self.sample.n),
            _ => self.random.below(1030),
        };
        let code = proved::threshold(n);
        codes::count(reference::threshold(n)).check(code)?;
        Ok(code)
    }

    fn text(&mut self) -> Vec<u8> {
        let valid = texts::valid(self.random, &self.sample);
        self.damaged(&texts::TEXT, valid)
    }

    fn file(&mut self) -> Vec<u8> {
        let mut file = files::valid(self.random, &self.sample);
        if self.random.percent(30) {
            file = files::damaged(self.random, &file, self.sample.n);
        }
        self.damaged(&files::FILE, file)
    }

    /// The text as it is, damaged, or junk in its place.
    fn damaged(&mut self, form: &Form, text: Vec<u8>) -> Vec<u8> {
        match self.random.below(2000) {
            0 => texts::junk(self.random, form, JUNK_LONG),
            1..=200 => {
                let length = self.random.below(300);
                texts::junk(self.random, form, length)
            }
            201..=800 => text,
            _ => texts::damaged(self.random, form, &text),
        }
    }

    /// Lengths of the two lists for a text or a file with the survey's nodes and so many link ends.
    fn list_lengths(&mut self, ends: usize) -> (usize, usize) {
        let nodes = self.sample.n;
        // mostly long enough for a text that names some more nodes and links, so that its lines are judged
        if self.random.percent(70) {
            (
                nodes + 1 + self.random.below(40),
                ends + self.random.below(40),
            )
        } else {
            (
                lists::length(self.random, nodes + 1),
                lists::length(self.random, ends),
            )
        }
    }

    /// Reads a text, or imports a file, by both into lists of the given lengths.
    fn read_by_both(
        &mut self,
        text: &[u8],
        (p, q): (usize, usize),
        proved: ProvedReading,
        reading: Reading,
    ) -> Result<Read, String> {
        let mut starts = lists::garbage32(self.random, p);
        let mut neighbours = lists::garbage16(self.random, q);
        let lent = Lent::new(self.random, text);
        let mut lent_starts = Lent::new(self.random, &starts);
        let mut lent_neighbours = Lent::new(self.random, &neighbours);
        let code = proved(
            lent.list(),
            lent_starts.list_mut(),
            lent_neighbours.list_mut(),
        );
        let answer = reading(text, &mut starts, &mut neighbours);
        codes::size(answer).check(code)?;
        lent.check("text", text)?;
        lent_starts.check("starts", &starts)?;
        lent_neighbours.check("neighbours", &neighbours)?;
        Ok(Read {
            code,
            answer,
            starts,
            neighbours,
        })
    }

    /// Writes lists, a survey's or damaged ones, by both into a buffer of about the needed length.
    fn write_by_both(
        &mut self,
        needed: usize,
        proved: ProvedWriting,
        writing: Writing,
    ) -> Result<Written, String> {
        let n = lists::node_count(self.random, self.sample.n);
        let lists = self.lists();
        let length = lists::length(self.random, needed);
        let mut buffer = lists::garbage8(self.random, length);
        let starts = Lent::new(self.random, &lists.starts);
        let neighbours = Lent::new(self.random, &lists.neighbours);
        let mut lent = Lent::new(self.random, &buffer);
        let code = proved(n, starts.list(), neighbours.list(), lent.list_mut());
        let answer = writing(n, &lists.starts, &lists.neighbours, &mut buffer);
        codes::count(answer).check(code)?;
        starts.check("starts", &lists.starts)?;
        neighbours.check("neighbours", &lists.neighbours)?;
        lent.check("buffer", &buffer)?;
        Ok(Written {
            code,
            answer,
            n,
            lists,
            buffer,
        })
    }

    /// A text that was read is imported too, as the file of the same lines, and must give the same lists.
    fn read(&mut self, counts: &mut Counts) -> Outcome {
        let text = self.text();
        let lengths = self.list_lengths(self.neighbours.len());
        let read = self.read_by_both(&text, lengths, proved::read, reference::read)?;
        if read.answer.is_ok() {
            let file = files::of_text(&text);
            if self.import_by_both(&file, lengths)? != read {
                return Err("the file of the same survey leaves something else".into());
            }
            counts.read_and_imported += 1;
        }
        Ok(read.code)
    }

    fn write(&mut self) -> Outcome {
        let needed = self.sample.text().len();
        let written = self.write_by_both(needed, proved::write, reference::write)?;
        Ok(written.code)
    }

    fn import_by_both(&mut self, file: &[u8], lengths: (usize, usize)) -> Result<Read, String> {
        self.read_by_both(file, lengths, proved::import, reference::import)
    }

    fn import(&mut self, counts: &mut Counts) -> Outcome {
        let file = self.file();
        // now and then only what the links that are kept would need
        let ends = if self.random.percent(90) {
            2 * files::link_lines(&file)
        } else {
            self.neighbours.len()
        };
        let lengths = self.list_lengths(ends);
        let read = self.import_by_both(&file, lengths)?;
        if let Some(kind) = files::kind(&file, lengths, read.answer) {
            counts.files[kind] += 1;
        }
        Ok(read.code)
    }

    /// A file that was exported is imported again, and must give the lists that it was made of.
    fn export(&mut self, counts: &mut Counts) -> Outcome {
        let needed = self.sample.file().len();
        let written = self.write_by_both(needed, proved::export, reference::export)?;
        if let Ok(length) = written.answer {
            let Lists { starts, neighbours } = &written.lists;
            let (starts, ends) = (&starts[..=written.n], starts[written.n] as usize);
            let lengths = (
                starts.len() + self.random.below(3),
                ends + self.random.below(3),
            );
            let read = self.import_by_both(&written.buffer[..length], lengths)?;
            if read.answer != Ok((written.n, ends / 2))
                || read.starts[..starts.len()] != *starts
                || read.neighbours[..ends] != neighbours[..ends]
            {
                return Err("imported again, it is another survey".into());
            }
            counts.exported_and_imported += 1;
        }
        Ok(written.code)
    }

    fn accept(&mut self) -> Outcome {
        let n = lists::node_count(self.random, self.sample.n);
        let lists = self.lists();
        let starts = Lent::new(self.random, &lists.starts);
        let neighbours = Lent::new(self.random, &lists.neighbours);
        let code = proved::accept(n, starts.list(), neighbours.list());
        let answer = reference::accept(n, &lists.starts, &lists.neighbours);
        codes::nothing(answer).check(code)?;
        starts.check("starts", &lists.starts)?;
        neighbours.check("neighbours", &lists.neighbours)?;
        Ok(code)
    }

    fn build(&mut self, counts: &mut Counts) -> Outcome {
        let n = lists::node_count(self.random, self.sample.n);
        let threshold = self.any_threshold();
        let lists = self.lists();
        let square = self.sample.n * self.sample.n;
        let wanted = [square, square, square, self.sample.n];
        // in half of the calls one length is free, so that most calls are not refused 8
        let free = self.random.below(8);
        let mut tables = [0, 1, 2, 3].map(|k| {
            let length = if k == free {
                lists::length(self.random, wanted[k])
            } else {
                wanted[k] + 3
            };
            lists::garbage16(self.random, length)
        });
        let starts = Lent::new(self.random, &lists.starts);
        let neighbours = Lent::new(self.random, &lists.neighbours);
        let mut lent = [0, 1, 2, 3].map(|k| Lent::new(self.random, &tables[k]));
        let [full, low, report, hubs] = &mut lent;
        let code = proved::build(
            n,
            threshold,
            starts.list(),
            neighbours.list(),
            full.list_mut(),
            low.list_mut(),
            report.list_mut(),
            hubs.list_mut(),
        );
        let [full, low, report, hubs] = &mut tables;
        let answer = reference::build(
            n,
            threshold,
            &lists.starts,
            &lists.neighbours,
            full,
            low,
            report,
            hubs,
        );
        codes::count(answer).check(code)?;
        starts.check("starts", &lists.starts)?;
        neighbours.check("neighbours", &lists.neighbours)?;
        for (k, name) in ["full", "low", "report", "hubs"].iter().enumerate() {
            lent[k].check(name, &tables[k])?;
        }
        if answer.is_ok() {
            counts.kinds[many::kind(n, &tables[1])] += 1;
            if self.are_own(n, &lists) {
                demand::check_reports(&self.sample, &tables[2])?;
            }
        }
        let split = Split::new(n, threshold, &lists.starts);
        counts.thresholds.count(Splitting::Build, &split, &answer);
        Ok(code)
    }

    /// The built tables, as they are, as they were, or altered.
    fn tables(&mut self, a: usize, b: usize) -> (Kind, Tables) {
        let [full, low, report] = self.built.clone();
        let mut tables = Tables { full, low, report };
        let kind = tables::kind(self.random);
        match kind {
            Kind::Built => {}
            Kind::BeforeLinks => tables.put_back(&self.sample),
            Kind::AllOnes => tables.report.fill(1),
            Kind::Altered => tables.alter(self.random, self.sample.n, a, b),
        }
        (kind, tables)
    }

    /// Two nodes, often the ends of a link.
    fn pair(&mut self) -> (usize, usize) {
        let n = self.sample.n;
        if self.random.percent(70) || self.neighbours.is_empty() {
            return (lists::node(self.random, n), lists::node(self.random, n));
        }
        let place = self.random.below(self.neighbours.len());
        let begun = self.starts.partition_point(|&x| x as usize <= place);
        (begun - 1, usize::from(self.neighbours[place]))
    }

    fn ask(&mut self, counts: &mut Counts) -> Outcome {
        let n = lists::node_count(self.random, self.sample.n);
        let (a, b) = self.pair();
        let (kind, tables) = self.tables(a, b);
        let [full, low, report] =
            [&tables.full, &tables.low, &tables.report].map(|table| Lent::new(self.random, table));
        let code = proved::ask(n, full.list(), low.list(), report.list(), a, b);
        let answer = reference::ask(n, &tables.full, &tables.low, &tables.report, a, b);
        codes::answer(answer).check(code)?;
        full.check("full", &tables.full)?;
        low.check("low", &tables.low)?;
        report.check("report", &tables.report)?;
        counts.pairs.count(&Pair {
            tables: kind,
            linked: self.linked(n, a, b),
            nodes: (a, b),
            report: tables.report_of(n, a, b),
            asked: answer,
            walked: None,
        });
        Ok(code)
    }

    /// Whether the survey links two nodes, if they are its own.
    fn linked(&self, n: usize, a: usize, b: usize) -> Option<bool> {
        (n == self.sample.n && a < n && b < n).then(|| self.sample.linked[a][b])
    }

    /// Lists for a walk: mostly the survey's own, since asking is judged behind them.
    fn walk_lists(&mut self) -> Lists {
        if self.random.percent(20) {
            return self.lists();
        }
        Lists {
            starts: self.starts.clone(),
            neighbours: self.neighbours.clone(),
        }
    }

    /// A length around what is always enough, or around what the report wants.
    fn walk_length(&mut self, tables: &Tables, a: usize, b: usize) -> usize {
        let n = self.sample.n;
        let report = tables.report_of(n, a, b).unwrap_or(0);
        let wanted = if self.random.percent(50) {
            2 * n
        } else {
            usize::from(report % 3000) + 1
        };
        lists::length(self.random, wanted)
    }

    /// Writes a walk by both into a list of the given length.
    fn walk_by_both(
        &mut self,
        n: usize,
        threshold: usize,
        (a, b): (usize, usize),
        lists: &Lists,
        tables: &Tables,
        length: usize,
    ) -> Result<Walked, String> {
        let Lists { starts, neighbours } = lists;
        let Tables { full, low, report } = tables;
        let mut walk = lists::garbage16(self.random, length);
        let lent_starts = Lent::new(self.random, starts);
        let lent_neighbours = Lent::new(self.random, neighbours);
        let [lent_full, lent_low, lent_report] =
            [full, low, report].map(|table| Lent::new(self.random, table));
        let mut lent_walk = Lent::new(self.random, &walk);
        let code = proved::walk(
            n,
            threshold,
            lent_starts.list(),
            lent_neighbours.list(),
            lent_full.list(),
            lent_low.list(),
            lent_report.list(),
            a,
            b,
            lent_walk.list_mut(),
        );
        let answer = reference::walk(
            n, threshold, starts, neighbours, full, low, report, a, b, &mut walk,
        );
        codes::answer(answer).check(code)?;
        lent_starts.check("starts", starts)?;
        lent_neighbours.check("neighbours", neighbours)?;
        lent_full.check("full", full)?;
        lent_low.check("low", low)?;
        lent_report.check("report", report)?;
        lent_walk.check("walk", &walk)?;
        Ok(Walked { code, answer, walk })
    }

    fn walk(&mut self, counts: &mut Counts) -> Outcome {
        let n = lists::node_count(self.random, self.sample.n);
        let (a, b) = self.pair();
        let lists = self.walk_lists();
        let (kind, tables) = self.tables(a, b);
        let threshold = self.walk_threshold();
        let length = self.walk_length(&tables, a, b);
        let Walked { code, answer, walk } =
            self.walk_by_both(n, threshold, (a, b), &lists, &tables, length)?;
        let split = Split::new(n, threshold, &lists.starts);
        counts.thresholds.count(Splitting::Walk, &split, &answer);
        let own = self.are_own(n, &lists);
        if own {
            demand::check_walk(&self.sample, (a, b), answer, &walk)?;
        }
        if own && kind == Kind::Built {
            if split.is_by(self.threshold) {
                demand::check_built_walk(answer)?;
            } else {
                counts.thresholds.count_walk(answer);
            }
        }
        counts.pairs.count(&Pair {
            tables: kind,
            linked: self.linked(n, a, b).filter(|_| own),
            nodes: (a, b),
            report: tables.report_of(n, a, b),
            asked: reference::ask(n, &tables.full, &tables.low, &tables.report, a, b),
            walked: Some((length, answer)),
        });
        Ok(code)
    }

    fn test(&mut self, counts: &mut Counts) -> Outcome {
        let n = lists::node_count(self.random, self.sample.n);
        let threshold = self.any_threshold();
        let lists = self.lists();
        let starts = Lent::new(self.random, &lists.starts);
        let neighbours = Lent::new(self.random, &lists.neighbours);
        let code = proved::test(n, threshold, starts.list(), neighbours.list());
        let answer = reference::test(n, threshold, &lists.starts, &lists.neighbours);
        codes::tested(answer).check(code)?;
        starts.check("starts", &lists.starts)?;
        neighbours.check("neighbours", &lists.neighbours)?;
        if let (Ok(tested), true) = (answer, self.are_own(n, &lists)) {
            demand::check_verdict(&self.sample, tested.verdict)?;
        }
        let split = Split::new(n, threshold, &lists.starts);
        counts.thresholds.count(Splitting::Test, &split, &answer);
        Ok(code)
    }

    fn list(&mut self, counts: &mut Counts) -> Outcome {
        let text = self.text();
        let listing = reference::reports(&text);
        let length = lists::length(self.random, listing.len());
        let mut buffer = lists::garbage8(self.random, length);
        let lent_text = Lent::new(self.random, &text);
        let mut lent = Lent::new(self.random, &buffer);
        let code = proved::list(lent_text.list(), lent.list_mut());
        let answer = reference::put_text(&listing, &mut buffer);
        codes::count(answer).check(code)?;
        lent_text.check("text", &text)?;
        lent.check("buffer", &buffer)?;
        counts.listings[refusal_in(&listing)] += 1;
        Ok(code)
    }
}

/// The degree of one of the nodes.
fn some_degree(random: &mut Random, starts: &[u32]) -> usize {
    let v = random.below(starts.len() - 1);
    (starts[v + 1] - starts[v]) as usize
}

/// The refusal that a listing's only line names, or 0.
fn refusal_in(listing: &[u8]) -> usize {
    let line = String::from_utf8_lossy(listing);
    line.strip_prefix("X,")
        .map_or(0, |digits| digits.trim_end().parse().expect("a number"))
}
