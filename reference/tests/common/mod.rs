//! Random graphs and a second, slower statement of the rules, worked from
//! an adjacency matrix instead of the lists.

// Each test file uses a part of this module.
#![allow(dead_code)]

pub mod reading;

use reference::{build, read, Answer, Route, Tested, Verdict, NONE};

pub const COURSE: &str = "S,6,6\nL,0,5\nL,1,5\nL,2,5\nL,3,5\nL,4,5\nL,1,2\n";

/// The course survey with a seventh node that has no link. Node 0 is the
/// hub, so pairs with node 6 have a none in their hub sum.
pub const SEPARATE_NODE: &str = "S,7,6\nL,0,5\nL,1,5\nL,2,5\nL,3,5\nL,4,5\nL,1,2\n";

/// Nodes 0 and 3 send each other back for 2 if each asks for its own walk.
pub const SENT_BACK: &str = "S,7,6\nL,0,3\nL,1,3\nL,2,5\nL,3,4\nL,3,5\nL,3,6\n";

/// The course survey as a planners' file with comments, and each link from
/// both ends.
pub const COURSE_FILE: &str = "c the course survey\np edge 6 12\ne 1 6\ne 2 6\ne 2 3\nc node 3\n\
    e 3 2\ne 3 6\ne 4 6\ne 5 6\nc\ne 6 1\ne 6 2\ne 6 3\ne 6 4\ne 6 5\nc end\n";

/// Stands for "no chain" in the distance matrix; two of them still add up.
pub const UNJOINED: usize = 1_000_000;

/// Xorshift generator with a fixed seed, so that every run is the same.
pub struct Random(u64);

impl Random {
    pub fn new(seed: u64) -> Self {
        Random(seed.wrapping_mul(0x9E37_79B9_7F4A_7C15) | 1)
    }

    #[allow(clippy::should_implement_trait)] // an iterator would answer an Option
    pub fn next(&mut self) -> u64 {
        self.0 ^= self.0 << 13;
        self.0 ^= self.0 >> 7;
        self.0 ^= self.0 << 17;
        self.0.wrapping_mul(0x2545_F491_4F6C_DD1D) >> 16
    }

    pub fn below(&mut self, limit: usize) -> usize {
        (self.next() % limit as u64) as usize
    }

    pub fn percent(&mut self, chance: usize) -> bool {
        self.below(100) < chance
    }

    pub fn shuffle<T>(&mut self, list: &mut [T]) {
        for last in (1..list.len()).rev() {
            list.swap(last, self.below(last + 1));
        }
    }
}

/// A graph as an adjacency matrix.
#[derive(Clone)]
pub struct Sample {
    pub name: String,
    pub n: usize,
    pub linked: Vec<Vec<bool>>,
}

impl Sample {
    pub fn new(name: &str, n: usize) -> Self {
        Sample {
            name: format!("{name} {n}"),
            n,
            linked: vec![vec![false; n]; n],
        }
    }

    /// The graph of a survey's text.
    pub fn of_text(name: &str, text: &str) -> Self {
        let mut lines = text.lines().map(two_numbers);
        let (n, _) = lines.next().expect("a first line");
        let links: Vec<_> = lines.collect();
        from_links(name, n, &links)
    }

    pub fn link(&mut self, a: usize, b: usize) {
        if a != b {
            self.linked[a][b] = true;
            self.linked[b][a] = true;
        }
    }

    /// Every pair a < b that is linked, ascending.
    pub fn links(&self) -> Vec<(usize, usize)> {
        let mut links = Vec::new();
        for a in 0..self.n {
            for b in a + 1..self.n {
                if self.linked[a][b] {
                    links.push((a, b));
                }
            }
        }
        links
    }

    pub fn degree(&self, v: usize) -> usize {
        self.linked[v].iter().filter(|&&x| x).count()
    }

    /// The lists `starts` and `neighbours` without spare entries.
    pub fn lists(&self) -> (Vec<u32>, Vec<u16>) {
        let (mut starts, mut neighbours) = (vec![0], Vec::new());
        for row in &self.linked {
            let own = (0..self.n).filter(|&b| row[b]).map(|b| b as u16);
            neighbours.extend(own);
            starts.push(neighbours.len() as u32);
        }
        (starts, neighbours)
    }

    /// The text as it is written back.
    pub fn text(&self) -> String {
        text_of(self.n, &self.links())
    }

    /// The file as it is exported.
    pub fn file(&self) -> String {
        file_of(self.n, &self.links())
    }

    /// The same graph with its nodes numbered anew.
    pub fn renumbered(&self, random: &mut Random) -> Sample {
        let mut numbers: Vec<usize> = (0..self.n).collect();
        random.shuffle(&mut numbers);
        let mut other = Sample::new(&self.name, self.n);
        for (a, b) in self.links() {
            other.link(numbers[a], numbers[b]);
        }
        other
    }
}

/// The numbers of a line of a survey's text.
fn two_numbers(line: &str) -> (usize, usize) {
    let fields = line.split(',').skip(1);
    let numbers: Vec<_> = fields.map(|x| x.parse().expect("a number")).collect();
    (numbers[0], numbers[1])
}

pub fn text_of(n: usize, links: &[(usize, usize)]) -> String {
    let lines = links.iter().map(|(a, b)| format!("L,{a},{b}\n"));
    format!("S,{n},{}\n", links.len()) + &lines.collect::<String>()
}

/// A planners' file, without comments.
pub fn file_of(n: usize, links: &[(usize, usize)]) -> String {
    let lines = links
        .iter()
        .map(|(a, b)| format!("e {} {}\n", a + 1, b + 1));
    format!("p edge {n} {}\n", links.len()) + &lines.collect::<String>()
}

/// Puts the links into any order, their ends either way round.
pub fn disorder(random: &mut Random, links: &mut [(usize, usize)]) {
    random.shuffle(links);
    for link in links {
        if random.percent(50) {
            *link = (link.1, link.0);
        }
    }
}

/// A planners' file of the sample: its lines in any order, ends either way
/// round, links repeated with the given chance, and some comments.
pub fn disordered_file(
    random: &mut Random,
    sample: &Sample,
    repeated: usize,
    comments: usize,
) -> Vec<u8> {
    let mut links = sample.links();
    for place in 0..links.len() {
        if random.percent(repeated) {
            links.push(links[place]);
        }
    }
    disordered_file_of(random, sample.n, links, comments)
}

/// A planners' file of the links, in any order, and some comments.
pub fn disordered_file_of(
    random: &mut Random,
    n: usize,
    mut links: Vec<(usize, usize)>,
    comments: usize,
) -> Vec<u8> {
    const COMMENTS: [&[u8]; 5] = [
        b"c\n",
        b"cx\n",
        b"c a network's nodes\n",
        b"ce 1 2\n",
        b"c \xff\0 p edge 1 1\r\n",
    ];
    disorder(random, &mut links);
    let file = file_of(n, &links);
    let mut lines: Vec<&[u8]> = file.as_bytes().split_inclusive(|&b| b == b'\n').collect();
    for _ in 0..comments {
        let place = random.below(lines.len() + 1);
        lines.insert(place, COMMENTS[random.below(COMMENTS.len())]);
    }
    lines.concat()
}

/// The value of a number in the stated form.
pub fn number(field: &str) -> Option<u64> {
    let value: u64 = field.parse().ok()?;
    // Printing again shows signs and leading zeros.
    (value.to_string() == field && field.len() <= 10).then_some(value)
}

pub fn from_links(name: &str, n: usize, links: &[(usize, usize)]) -> Sample {
    let mut sample = Sample::new(name, n);
    for &(a, b) in links {
        sample.link(a, b);
    }
    sample
}

pub fn course() -> Sample {
    Sample::of_text("course", COURSE)
}

pub fn path(n: usize) -> Sample {
    let links: Vec<_> = (1..n).map(|v| (v - 1, v)).collect();
    from_links("path", n, &links)
}

pub fn cycle(n: usize) -> Sample {
    let mut sample = path(n);
    sample.name = format!("cycle {n}");
    sample.link(0, n - 1);
    sample
}

pub fn star(n: usize, centre: usize) -> Sample {
    let links: Vec<_> = (0..n).map(|v| (centre, v)).collect();
    from_links("star", n, &links)
}

/// Every pair is linked with the given chance.
pub fn random_links(random: &mut Random, n: usize, chance: usize) -> Sample {
    let mut sample = Sample::new(&format!("random {chance}%"), n);
    for a in 0..n {
        for b in a + 1..n {
            if random.percent(chance) {
                sample.link(a, b);
            }
        }
    }
    sample
}

pub fn tree(random: &mut Random, n: usize) -> Sample {
    let links: Vec<_> = (1..n).map(|v| (random.below(v), v)).collect();
    from_links("tree", n, &links)
}

/// Dense blocks of nodes without links between them.
pub fn blocks(n: usize, count: usize) -> Sample {
    let mut sample = Sample::new("blocks", n);
    for a in 0..n {
        for b in a + 1..n {
            if a * count / n == b * count / n {
                sample.link(a, b);
            }
        }
    }
    sample
}

/// Blocks whose neighbours in order are joined by one link.
pub fn joined_blocks(n: usize, count: usize) -> Sample {
    let mut sample = blocks(n, count);
    sample.name = format!("joined blocks {n}");
    for v in 1..n {
        sample.link(v - 1, v);
    }
    sample
}

/// A complete graph on some nodes and a path over the others.
pub fn complete_and_path(n: usize, complete: usize) -> Sample {
    let mut sample = path(n);
    sample.name = format!("complete and path {n}");
    for a in 0..complete.min(n) {
        for b in 0..a {
            sample.link(a, b);
        }
    }
    sample
}

/// Every node of one part is linked to every node of the other.
pub fn two_parts(n: usize, first: usize) -> Sample {
    let mut sample = Sample::new("two parts", n);
    for a in 0..first.min(n) {
        for b in first.min(n)..n {
            sample.link(a, b);
        }
    }
    sample
}

/// A few graphs of every kind with n nodes.
pub fn samples_of(random: &mut Random, n: usize) -> Vec<Sample> {
    let centre = random.below(n);
    let complete_part = n * 2 / 3;
    let mut samples = vec![
        Sample::new("no link", n),
        path(n),
        cycle(n),
        star(n, centre),
        star(n, n - 1),
        blocks(n, 1),
        tree(random, n),
        random_links(random, n, 5),
        random_links(random, n, 15),
        random_links(random, n, 40),
        random_links(random, n, 60),
        random_links(random, n, 80),
        random_links(random, n, 95),
        blocks(n, 2),
        joined_blocks(n, 2),
        joined_blocks(n, 3),
        complete_and_path(n, complete_part),
        two_parts(n, n / 2),
    ];
    let renumbered = [6, 13, 14, 15, 16];
    for index in renumbered {
        let other = samples[index].renumbered(random);
        samples.push(other);
    }
    samples
}

/// All graphs of 1 to 40 nodes that the tests run through.
pub fn small_samples(seed: u64) -> Vec<Sample> {
    let mut random = Random::new(seed);
    (1..=40).flat_map(|n| samples_of(&mut random, n)).collect()
}

/// Some graphs of up to 200 nodes.
pub fn larger_samples(seed: u64) -> Vec<Sample> {
    let mut random = Random::new(seed);
    let mut samples = vec![
        blocks(150, 1),
        random_links(&mut random, 64, 50),
        random_links(&mut random, 100, 30),
        random_links(&mut random, 128, 2),
        random_links(&mut random, 200, 20),
        random_links(&mut random, 200, 40),
        random_links(&mut random, 200, 1),
        joined_blocks(120, 4),
        blocks(120, 3),
        complete_and_path(120, 60),
        joined_blocks(200, 4),
        star(200, 100),
        path(200),
        tree(&mut random, 180),
    ];
    for index in 7..samples.len() {
        let other = samples[index].renumbered(&mut random);
        samples.push(other);
    }
    samples
}

/// Every pair of n nodes, ascending.
pub fn pairs(n: usize) -> Vec<(usize, usize)> {
    (0..n * n).map(|place| (place / n, place % n)).collect()
}

/// The thresholds that are tried on n nodes, each once, but for those that
/// are refused. Any n will do.
pub fn thresholds(n: usize) -> Vec<usize> {
    let s = reference::threshold(n).unwrap_or(0);
    let mut all = vec![0, 1, 2, s, n, n.saturating_add(1), 1024];
    all.retain(|&threshold| threshold <= 1024);
    all.sort();
    all.dedup();
    all
}

/// Thresholds that are refused 14.
pub const REFUSED_THRESHOLDS: [usize; 2] = [1025, usize::MAX];

/// A survey with its tables.
#[derive(Clone, Debug, PartialEq)]
pub struct Built {
    pub n: usize,
    /// What building was given, and what walking and testing are given.
    pub threshold: usize,
    pub starts: Vec<u32>,
    pub neighbours: Vec<u16>,
    pub full: Vec<u16>,
    pub low: Vec<u16>,
    pub report: Vec<u16>,
    pub hubs: Vec<u16>,
    pub hub_count: usize,
}

impl Built {
    fn of_lists(n: usize, threshold: usize, starts: Vec<u32>, neighbours: Vec<u16>) -> Built {
        let mut built = Built {
            n,
            threshold,
            starts,
            neighbours,
            full: vec![7; n * n],
            low: vec![7; n * n],
            report: vec![7; n * n],
            hubs: vec![7; n],
            hub_count: 0,
        };
        built.hub_count = built.build().expect("an accepted survey");
        built
    }

    pub fn of_sample(sample: &Sample, threshold: usize) -> Built {
        let (starts, neighbours) = sample.lists();
        Built::of_lists(sample.n, threshold, starts, neighbours)
    }

    /// With the stored table's threshold.
    pub fn of_text(text: &str) -> Built {
        let (mut starts, mut neighbours) = (vec![0; 1025], vec![0; 32768]);
        let (n, _) = read(text.as_bytes(), &mut starts, &mut neighbours).expect("a survey");
        Built::of_lists(n, 0, starts, neighbours)
    }

    /// The tables as they were before linked nodes reported 1.
    pub fn before_links(mut self, sample: &Sample) -> Built {
        put_back(sample, &self.full, &self.low, &mut self.report);
        self
    }

    /// Builds the tables anew.
    pub fn build(&mut self) -> Result<usize, u8> {
        build(
            self.n,
            self.threshold,
            &self.starts,
            &self.neighbours,
            &mut self.full,
            &mut self.low,
            &mut self.report,
            &mut self.hubs,
        )
    }

    pub fn ask(&self, a: usize, b: usize) -> Result<Answer, u8> {
        reference::ask(self.n, &self.full, &self.low, &self.report, a, b)
    }

    pub fn walk(&self, a: usize, b: usize, list: &mut [u16]) -> Result<Answer, u8> {
        reference::walk(
            self.n,
            self.threshold,
            &self.starts,
            &self.neighbours,
            &self.full,
            &self.low,
            &self.report,
            a,
            b,
            list,
        )
    }

    pub fn test(&self) -> Result<Tested, u8> {
        reference::test(self.n, self.threshold, &self.starts, &self.neighbours)
    }

    /// The same lists and tables, with another threshold for further calls.
    pub fn given(&self, threshold: usize) -> Built {
        let mut other = self.clone();
        other.threshold = threshold;
        other
    }

    /// That building, walking and testing are refused, and that building
    /// alters nothing.
    #[track_caller]
    pub fn check_refused(&self, refusal: u8, pair: (usize, usize)) {
        let mut other = self.clone();
        assert_eq!(other.build(), Err(refusal));
        assert!(other == *self);
        self.check_refused_walk(refusal, pair);
        assert_eq!(self.test(), Err(refusal));
    }

    /// That a walk is refused, into lists that are long enough for every walk
    /// and into shorter ones, and that these are all none.
    #[track_caller]
    pub fn check_refused_walk(&self, refusal: u8, (a, b): (usize, usize)) {
        for length in [0, 1, 2 * self.hubs.len() + 3] {
            let mut list = vec![3; length];
            assert_eq!(self.walk(a, b, &mut list), Err(refusal));
            assert!(list.iter().all(|&entry| entry == NONE));
        }
    }
}

/// Gives linked nodes the reports that they had before these became 1.
pub fn put_back(sample: &Sample, full: &[u16], low: &[u16], report: &mut [u16]) {
    let n = sample.n;
    for (a, b) in sample.links() {
        let least = least_candidate(n, full, low, a, b);
        report[a * n + b] = least;
        report[b * n + a] = least;
    }
}

/// The least of Low's entry and the sums of two entries of Full, in tables
/// that are built.
fn least_candidate(n: usize, full: &[u16], low: &[u16], a: usize, b: usize) -> u16 {
    let sums = full
        .chunks_exact(n)
        .map(|row| row[a].saturating_add(row[b]));
    sums.fold(low[a * n + b], u16::min)
}

/// Distances between all allowed nodes by repeated improvement through
/// every node in turn.
pub fn distances(sample: &Sample, allowed: &[bool]) -> Vec<Vec<usize>> {
    let n = sample.n;
    let mut least = vec![vec![UNJOINED; n]; n];
    for a in (0..n).filter(|&a| allowed[a]) {
        for b in (0..n).filter(|&b| allowed[b]) {
            if a == b {
                least[a][b] = 0;
            } else if sample.linked[a][b] {
                least[a][b] = 1;
            }
        }
    }
    for through in 0..n {
        let onward = least[through].clone();
        for row in least.iter_mut().filter(|row| row[through] < UNJOINED) {
            let first = row[through];
            for (entry, &second) in row.iter_mut().zip(&onward) {
                *entry = (*entry).min(first + second);
            }
        }
    }
    least
}

/// The rules worked out from the matrix.
pub struct Expected {
    pub distances: Vec<Vec<usize>>,
    pub low_nodes: Vec<bool>,
    pub hubs: Vec<usize>,
    pub full: Vec<u16>,
    pub low: Vec<u16>,
    pub report: Vec<u16>,
}

impl Expected {
    pub fn of(sample: &Sample, threshold: usize) -> Expected {
        let n = sample.n;
        let distances_all = distances(sample, &vec![true; n]);
        let low_nodes = expected_low_nodes(sample, threshold);
        let distances_low = distances(sample, &low_nodes);
        let hubs = expected_hubs(sample, &low_nodes);
        let (mut full, mut low, mut report) = (Vec::new(), Vec::new(), Vec::new());
        for a in 0..n {
            for b in 0..n {
                let from_hub = hubs.contains(&a);
                let distance = distances_all[a][b];
                full.push(entry(if from_hub { distance } else { UNJOINED }));
                low.push(entry(distances_low[a][b]));
                let sums = hubs
                    .iter()
                    .map(|&h| distances_all[h][a] + distances_all[h][b]);
                let least = sums.chain([distances_low[a][b]]).min().unwrap();
                // Itself and a link before all candidates.
                report.push(entry(if distance <= 1 { distance } else { least }));
            }
        }
        Expected {
            distances: distances_all,
            low_nodes,
            hubs,
            full,
            low,
            report,
        }
    }

    pub fn hub_list(&self) -> Vec<u16> {
        let mut list: Vec<u16> = self.hubs.iter().map(|&h| h as u16).collect();
        list.resize(self.low_nodes.len(), NONE);
        list
    }
}

/// A table's entry for so many links.
pub fn entry(distance: usize) -> u16 {
    if distance >= UNJOINED {
        NONE
    } else {
        distance as u16
    }
}

/// A whole number is below s(n) exactly where its square is below n * L(n).
pub fn expected_low_nodes(sample: &Sample, threshold: usize) -> Vec<bool> {
    let n = sample.n;
    let bits = (0..).find(|&bits| n < 1 << bits).unwrap();
    let is_low = |neighbours: usize| match threshold {
        0 => neighbours.pow(2) < n * bits,
        _ => neighbours < threshold,
    };
    (0..n).map(|v| is_low(sample.degree(v))).collect()
}

fn expected_hubs(sample: &Sample, low_nodes: &[bool]) -> Vec<usize> {
    let mut uncovered: Vec<usize> = (0..sample.n).filter(|&v| !low_nodes[v]).collect();
    let mut hubs = Vec::new();
    while !uncovered.is_empty() {
        let covers = |h: usize, v: usize| h == v || sample.linked[h][v];
        let counts: Vec<usize> = (0..sample.n)
            .map(|h| uncovered.iter().filter(|&&v| covers(h, v)).count())
            .collect();
        let most = *counts.iter().max().unwrap();
        let hub = counts.iter().position(|&count| count == most).unwrap();
        uncovered.retain(|&v| !covers(hub, v));
        hubs.push(hub);
    }
    hubs
}

/// What asking must answer, from the tables alone.
pub fn expected_ask(built: &Built, a: usize, b: usize) -> Result<(u16, Route), u8> {
    let n = built.n;
    let report = built.report[a * n + b];
    if a == b {
        return if report == 0 {
            Ok((0, Route::Itself))
        } else {
            Err(11)
        };
    }
    if report == NONE {
        return Ok((NONE, Route::NoRoute));
    }
    // In the order of preference. Without the lists a link may be anywhere.
    let mut candidates = vec![
        (1, Route::Link),
        (built.low[a * n + b] as usize, Route::Low),
    ];
    for h in 0..n {
        let pair = [built.full[h * n + a], built.full[h * n + b]];
        if !pair.contains(&NONE) {
            let sum = pair[0] as usize + pair[1] as usize;
            candidates.push((sum, Route::Through(h as u16)));
        }
    }
    candidates.retain(|&(links, _)| links == report as usize);
    candidates
        .first()
        .map(|&(_, route)| (report, route))
        .ok_or(11)
}

/// The nodes of the walk that must be written, or nothing if it fails.
pub fn expected_walk(
    sample: &Sample,
    built: &Built,
    low_nodes: &[bool],
    route: Route,
    a: usize,
    b: usize,
) -> Option<Vec<usize>> {
    let n = built.n;
    match route {
        Route::Itself => Some(vec![a]),
        Route::NoRoute => Some(vec![]),
        Route::Link => sample.linked[a][b].then(|| vec![a, b]),
        Route::Low => {
            let left: Vec<u16> = (0..n).map(|x| built.low[x * n + b]).collect();
            steps(sample, low_nodes, &left, left[a], a, b)
        }
        Route::Through(h) => {
            let h = h as usize;
            let left: Vec<u16> = (0..n).map(|x| built.full[h * n + x]).collect();
            let every_node = vec![true; n];
            let to_hub = steps(sample, &every_node, &left, left[a], a, h)?;
            let mut from_hub = steps(sample, &every_node, &left, left[b], b, h)?;
            from_hub.reverse();
            Some([&to_hub[..], &from_hub[1..]].concat())
        }
    }
}

fn steps(
    sample: &Sample,
    allowed: &[bool],
    left: &[u16],
    remaining: u16,
    here: usize,
    goal: usize,
) -> Option<Vec<usize>> {
    if remaining == 0 {
        return if here == goal { Some(vec![here]) } else { None };
    }
    for x in 0..sample.n {
        if sample.linked[here][x] && allowed[x] && left[x] == remaining - 1 {
            let rest = steps(sample, allowed, left, remaining - 1, x, goal)?;
            return Some([vec![here], rest].concat());
        }
    }
    None
}

/// Whether the nodes are a chain from a to b with the given links.
pub fn is_chain(sample: &Sample, nodes: &[u16], a: usize, b: usize, links: u16) -> bool {
    nodes.len() == links as usize + 1
        && nodes[0] as usize == a
        && nodes[nodes.len() - 1] as usize == b
        && nodes
            .windows(2)
            .all(|pair| sample.linked[pair[0] as usize][pair[1] as usize])
}

/// Whether a report is none exactly where no chain joins the pair, and lies
/// otherwise between the fewest links and two more.
pub fn is_allowed(fewest: usize, report: usize) -> bool {
    if fewest >= UNJOINED {
        report == usize::from(NONE)
    } else {
        (fewest..=fewest + 2).contains(&report)
    }
}

/// Whether a verdict is parted exactly where some two nodes are unjoined, and
/// neither short where some two are four or more links apart nor long where
/// all are within two.
pub fn is_right(distances: &[Vec<usize>], verdict: Verdict) -> bool {
    match distances.iter().flatten().max() {
        Some(UNJOINED..) => verdict == Verdict::Parted,
        Some(4..) => verdict == Verdict::Long,
        Some(3) => verdict != Verdict::Parted,
        _ => verdict == Verdict::Short,
    }
}
