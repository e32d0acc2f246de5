//! Makes the script that the Rattle program `test_tables` is run on:
//! the rules' examples, surveys of many shapes, wrong lengths and
//! numbers, lists that are no survey's, altered or older tables, and
//! thresholds that callers give.

use crate::common::{
    blocks, complete_and_path, course, cycle, from_links, joined_blocks, pairs, path, random_links,
    star, tree, two_parts, Built, Random, Sample, COURSE, SENT_BACK, SEPARATE_NODE,
};
use crate::test_surveys_input::{line, read_into};
use crate::test_tables::{
    Numbers, FULL, HUBS, LENGTHS, LOW, NEIGHBOURS, NODES, REPORT, STARTS, THRESHOLD, WALK,
};
use reference::{NONE, STORED};

/// Tables of at most so many nodes are printed whole.
const MOST_PRINTED: usize = 40;

/// The whole script.
pub fn make() -> Vec<u8> {
    let mut maker = Maker {
        script: Vec::new(),
        numbers: [0; 9],
    };
    examples(&mut maker);
    let mut random = Random::new(11);
    for sample in shapes(&mut random) {
        whole_survey(&mut maker, &sample, &mut random);
    }
    for sample in small_shapes(&mut random) {
        wrong_numbers(&mut maker, &sample);
        wrong_lists(&mut maker, &sample, &mut random);
        altered_tables(&mut maker, &sample, &mut random);
    }
    altered_by_hand(&mut maker);
    for sample in [course(), path(4), blocks(5, 1), Sample::new("no link", 2)] {
        all_ones(&mut maker, &sample);
    }
    for sample in [course(), star(10, 3), joined_blocks(12, 2)] {
        before_links(&mut maker, &sample);
    }
    ones_by_hand(&mut maker);
    zeros_by_hand(&mut maker);
    course_by_thresholds(&mut maker);
    for sample in every_threshold_shapes(&mut random) {
        every_threshold(&mut maker, &sample);
    }
    refused_thresholds(&mut maker);
    two_thresholds(&mut maker);
    maker.script
}

/// The script so far, and the numbers that its commands N have set.
struct Maker {
    script: Vec<u8>,
    numbers: Numbers,
}

impl Maker {
    fn put(&mut self, letter: u8, x: usize, y: usize) {
        line(&mut self.script, letter, x, y);
    }

    /// Sets number i, if it is another one.
    fn number(&mut self, i: usize, x: usize) {
        if self.numbers[i] != x {
            self.numbers[i] = x;
            self.put(b'N', i, x);
        }
    }

    fn numbers(&mut self, numbers: &Numbers) {
        for (i, &x) in numbers.iter().enumerate() {
            self.number(i, x);
        }
    }

    fn read(&mut self, text: &str) {
        let (p, q) = (LENGTHS[STARTS], LENGTHS[NEIGHBOURS]);
        read_into(&mut self.script, text.as_bytes(), p, q);
    }

    /// Reads a survey, and lends lists with not an entry to spare.
    fn begin(&mut self, sample: &Sample) {
        self.read(&sample.text());
        self.numbers(&exact(sample.n, sample.links().len()));
    }

    fn build(&mut self) {
        self.put(b'B', 0, 0);
    }

    /// Builds, and prints the whole tables and the hub list of few nodes;
    /// of many nodes only the sums are printed.
    fn build_and_print(&mut self) {
        self.build();
        if self.numbers[NODES] <= MOST_PRINTED {
            for list in [FULL, LOW, REPORT, HUBS] {
                self.put(b'V', list, 0);
            }
        }
    }

    fn ask(&mut self, a: usize, b: usize) {
        self.put(b'Q', a, b);
    }

    fn walk(&mut self, a: usize, b: usize) {
        self.put(b'W', a, b);
    }

    fn test(&mut self) {
        self.put(b'T', 0, 0);
    }

    /// All calls with the numbers as they stand.
    fn all_calls(&mut self, a: usize, b: usize) {
        self.build();
        self.ask(a, b);
        self.walk(a, b);
        self.test();
    }
}

/// Lists with not an entry to spare, but for the walk list.
fn exact(n: usize, m: usize) -> Numbers {
    [n, n + 1, 2 * m, n * n, n * n, n * n, n, 2 * n, STORED]
}

/// The rules' examples. Those that are not starred:
///
/// - rule 12.2, and the course survey: the listing of the course survey,
///   which is its hub count and the answers of all pairs; `S,1025,0`;
///   `S,2,16385`; `S,2,0`.
/// - rule 12.3: the walks (0, 2) and (3, 2) of `SENT_BACK`, along which 0
///   and 3 would send each other back; the course survey's table Low, where
///   both ends of a link are low; its hub list; and a sum with a none in it,
///   which the rules name no survey for: `SEPARATE_NODE` has Full(0, 6) none,
///   and a sum that wraps would report 0 for (5, 6).
///
/// The starred ones are run too: the course survey's hub, its report and
/// walk (1, 3) and its report (5, 5); the tests of `S,1,0`, of the chain
/// 0-1-2-3-4, and of the five nodes with links 0-1, 0-2, 1-2, 1-3, 2-4.
fn examples(maker: &mut Maker) {
    let five_nodes = "S,5,5\nL,0,1\nL,0,2\nL,1,2\nL,1,3\nL,2,4\n";
    let chain = path(5).text();
    for (text, n, m) in [
        (COURSE, 6, 6),
        ("S,2,0\n", 2, 0),
        (SEPARATE_NODE, 7, 6),
        (SENT_BACK, 7, 6),
        ("S,1,0\n", 1, 0),
        (&chain, 5, 4),
        (five_nodes, 5, 5),
    ] {
        maker.read(text);
        maker.numbers(&exact(n, m));
        maker.build_and_print();
        maker.test();
        for a in 0..n {
            for b in 0..n {
                maker.ask(a, b);
                maker.walk(a, b);
            }
        }
    }
    // A refused reading leaves zeros: a survey without links.
    for text in ["S,1025,0\n", "S,2,16385\n"] {
        maker.read(text);
        maker.numbers(&exact(2, 0));
        maker.all_calls(0, 1);
        maker.number(NODES, 1025);
        maker.all_calls(0, 1);
    }
}

/// Surveys of many shapes and sizes, with high nodes and without.
fn shapes(random: &mut Random) -> Vec<Sample> {
    let mut samples = vec![
        Sample::new("no link", 1),
        Sample::new("no link", 2),
        Sample::new("no link", 9),
        Sample::new("no link", 150),
        star(2, 0),
        star(9, 0),
        star(12, 11),
        star(40, 17),
        star(150, 75),
        blocks(3, 1),
        blocks(5, 1),
        blocks(12, 1),
        blocks(33, 1),
        path(3),
        path(17),
        path(64),
        path(65),
        path(150),
        cycle(4),
        cycle(9),
        cycle(129),
        grid(3, 3),
        grid(5, 7),
        grid(10, 10),
        blocks(10, 2),
        blocks(24, 3),
        blocks(60, 3),
        blocks(70, 10),
        joined_blocks(12, 2),
        joined_blocks(40, 2),
        // No node is low here, and the searches go deeper than 2.
        joined_blocks(60, 3),
        joined_blocks(66, 3),
        joined_blocks(128, 16),
        complete_and_path(20, 13),
        complete_and_path(70, 30),
        two_parts(10, 5),
        two_parts(30, 3),
        two_parts(65, 20),
        // No node is low here, and the searches end at 2.
        two_parts(40, 20),
        tree(random, 15),
        tree(random, 100),
        tree(random, 150),
    ];
    for (n, chance) in [
        (20, 5),
        (128, 2),
        (150, 1),
        (30, 15),
        (25, 40),
        (40, 60),
        (24, 80),
        (30, 95),
        (64, 50),
        (100, 25),
        (66, 30),
    ] {
        samples.push(random_links(random, n, chance));
    }
    for i in [5, 7, 29, 30, 33, 34, 37] {
        let other = samples[i].renumbered(random);
        samples.push(other);
    }
    samples
}

/// Surveys for wrong and altered lists.
fn small_shapes(random: &mut Random) -> Vec<Sample> {
    vec![
        course(),
        Sample::new("no link", 1),
        path(4),
        cycle(7),
        star(10, 3),
        blocks(8, 1),
        joined_blocks(12, 2),
        complete_and_path(14, 9),
        grid(3, 4),
        random_links(random, 11, 40),
        random_links(random, 16, 60),
        random_links(random, 20, 30),
    ]
}

/// Nodes in rows and columns, linked to those beside, above and below.
fn grid(rows: usize, columns: usize) -> Sample {
    let mut sample = Sample::new("grid", rows * columns);
    for v in 0..rows * columns {
        if v % columns > 0 {
            sample.link(v - 1, v);
        }
        if v >= columns {
            sample.link(v - columns, v);
        }
    }
    sample
}

/// Builds, tests, and asks and walks many pairs, of exact lists and of
/// longer ones.
fn whole_survey(maker: &mut Maker, sample: &Sample, random: &mut Random) {
    let (n, built) = (sample.n, Built::of_sample(sample, STORED));
    maker.begin(sample);
    maker.build_and_print();
    maker.test();
    for (a, b) in some_pairs(n, random) {
        maker.ask(a, b);
        walk_into(maker, &built, a, b, random);
    }
    // Entries past those named keep their values.
    maker.numbers(&LENGTHS);
    maker.number(NODES, n);
    maker.all_calls(0, n - 1);
    let others = [STARTS, NEIGHBOURS, FULL, LOW, REPORT, HUBS];
    for list in others {
        maker.number(list, LENGTHS[list] - random.below(9));
    }
    maker.all_calls(n - 1, 0);
}

/// All pairs of few nodes, or some of many.
fn some_pairs(n: usize, random: &mut Random) -> Vec<(usize, usize)> {
    if n <= 5 {
        return pairs(n);
    }
    let mut pairs = vec![(0, n - 1), (n - 1, 0), (n / 2, n / 2)];
    for _ in 0..24 {
        pairs.push((random.below(n), random.below(n)));
    }
    pairs
}

/// The walk of a pair into a list of report + 1 entries, or of another
/// length.
fn walk_into(maker: &mut Maker, built: &Built, a: usize, b: usize, random: &mut Random) {
    let report = built.report[a * built.n + b] as usize;
    // Where there is no route, any length will do.
    let fit = (report + 1).min(LENGTHS[WALK]);
    let lengths = [fit, fit, fit, fit - 1, 0, 1, LENGTHS[WALK]];
    maker.number(WALK, lengths[random.below(lengths.len())]);
    maker.walk(a, b);
}

/// Wrong lengths of each list, wrong counts of nodes, and no nodes.
fn wrong_numbers(maker: &mut Maker, sample: &Sample) {
    let (n, right) = (sample.n, exact(sample.n, sample.links().len()));
    maker.read(&sample.text());
    maker.numbers(&right);
    maker.all_calls(0, n - 1);
    for list in [STARTS, NEIGHBOURS, FULL, LOW, REPORT, HUBS, WALK] {
        for length in [right[list].max(1) - 1, 0, right[list] + 1] {
            maker.number(list, length);
            maker.all_calls(0, n - 1);
        }
        maker.number(list, right[list]);
    }
    for (a, b) in [(n, 0), (0, n), (n, n), (n + 1, 0), (0, 65535), (1024, 1024)] {
        maker.ask(a, b);
        maker.walk(a, b);
    }
    maker.ask(4294967296, 0);
    maker.walk(0, 9999999999);
    for count in [
        0,
        n - 1,
        n + 1,
        1024,
        1025,
        65536 + n,
        4294967296,
        9999999999,
    ] {
        maker.number(NODES, count);
        maker.all_calls(0, 0);
        maker.ask(n, 0);
        maker.walk(0, n);
    }
    order_of_refusals(maker, n, &right);
}

/// Calls with two faults are refused for the first one.
fn order_of_refusals(maker: &mut Maker, n: usize, right: &Numbers) {
    let not_survey = |maker: &mut Maker| maker.number(NEIGHBOURS, 0);
    let faults: [&dyn Fn(&mut Maker); 5] = [
        &|maker| maker.number(NODES, 1025),
        &|maker| maker.number(LOW, n * n - 1),
        &|maker| maker.number(STARTS, n),
        &not_survey,
        &|maker| maker.number(WALK, 0),
    ];
    for first in faults {
        for second in faults {
            maker.numbers(right);
            first(maker);
            second(maker);
            maker.all_calls(0, n);
            maker.walk(0, n - 1);
        }
    }
    maker.numbers(right);
}

/// Lists that are not a survey's: entries changed by chance.
fn wrong_lists(maker: &mut Maker, sample: &Sample, random: &mut Random) {
    let (n, m) = (sample.n, sample.links().len());
    let (p, q) = (n + 1, 2 * m);
    maker.numbers(&exact(n, m));
    for _ in 0..4 {
        maker.read(&sample.text());
        let near = [0, 1, q / 2, q + 1, q + 2, 32770, 65536, 4294967295];
        maker.put(b'S', random.below(p), near[random.below(near.len())]);
        maker.all_calls(0, n - 1);
        maker.walk(n, 0);
    }
    for _ in 0..4 {
        maker.read(&sample.text());
        if q > 0 {
            let near = [random.below(n), random.below(n), n, 65535];
            maker.put(b'E', random.below(q), near[random.below(near.len())]);
        }
        maker.all_calls(0, n - 1);
    }
    // 16,385 links; an odd last start.
    maker.read(&sample.text());
    maker.number(NEIGHBOURS, LENGTHS[NEIGHBOURS]);
    for last in [32768, 32770, q + 1] {
        maker.put(b'S', n, last);
        maker.all_calls(0, n - 1);
    }
}

/// Entries of the tables changed by chance, then pairs near them.
fn altered_tables(maker: &mut Maker, sample: &Sample, random: &mut Random) {
    let n = sample.n;
    maker.begin(sample);
    for _ in 0..12 {
        maker.build();
        for _ in 0..1 + random.below(3) {
            let (a, b) = (random.below(n), random.below(n));
            for letter in [b'P', b'F', b'L'] {
                if random.percent(50) {
                    maker.put(letter, a * n + b, altered_entry(n, random));
                }
            }
            for (x, y) in [(a, b), (b, a), (a, random.below(n)), (random.below(n), b)] {
                maker.ask(x, y);
                maker.walk(x, y);
            }
        }
        // The hub list is lent to building alone.
        maker.put(b'H', random.below(n), random.below(n));
    }
    maker.number(WALK, 1);
    maker.put(b'P', n - 1, 1);
    maker.walk(0, n - 1);
}

fn altered_entry(n: usize, random: &mut Random) -> usize {
    let entries = [0, 1, 1, 2, 2, 3, 4, n - 1, n, 32768, 65534, 65535, 65535];
    entries[random.below(entries.len())]
}

/// Altered tables whose outcome is known beforehand.
fn altered_by_hand(maker: &mut Maker) {
    let none = usize::from(NONE);
    // On the path 0-1-2-3 all nodes are low. No step leads on; the steps
    // end at 2; no step, and 0 is not 3; a report that nothing attains.
    alter(maker, &path(4), &[(b'L', 1, 3, none)]);
    let ends_at_2 = [
        (b'P', 0, 3, 2),
        (b'L', 0, 3, 2),
        (b'L', 1, 3, 1),
        (b'L', 2, 3, 0),
    ];
    alter(maker, &path(4), &ends_at_2);
    alter(maker, &path(4), &[(b'P', 0, 3, 0), (b'L', 0, 3, 0)]);
    alter(maker, &path(4), &[(b'P', 0, 3, 4)]);
    alter(maker, &path(4), &[(b'P', 0, 3, none)]);
    // Round the other way: a chain of the survey, given out.
    let other_way = [(b'P', 0, 3, 4), (b'L', 0, 3, 4), (b'L', 6, 3, 3)];
    alter(maker, &cycle(7), &other_way);
    let longer_way = [
        (b'P', 0, 3, 4),
        (b'L', 0, 3, 4),
        (b'L', 6, 3, 3),
        (b'L', 5, 3, 2),
        (b'L', 4, 3, 1),
        (b'L', 1, 3, none),
    ];
    alter(maker, &cycle(7), &longer_way);
    // Sums of two entries of Full that need more than 16 bits: the report if
    // they wrapped. Then sums of 65,535 and 65,534, and sums with a none.
    for (to_a, to_b, report) in [
        (65534, 4, 2),
        (32768, 32768, 0),
        (65534, 65534, 65532),
        (32767, 32768, 65535),
        (32767, 32767, 65534),
        (none, 3, 2),
        (3, none, 2),
    ] {
        let entries = [
            (b'P', 0, 3, report),
            (b'L', 0, 3, none),
            (b'F', 2, 0, to_a),
            (b'F', 2, 3, to_b),
        ];
        alter(maker, &path(4), &entries);
    }
    // A node that is no hub serves as one; of two, the smaller.
    for hubs in [&[2][..], &[1, 2], &[0, 3], &[3]] {
        let mut entries = vec![(b'L', 0, 3, none)];
        for &h in hubs {
            for v in 0..4usize {
                entries.push((b'F', h, v, v.abs_diff(h)));
            }
        }
        alter(maker, &path(4), &entries);
    }
    // Node 4 is high, and is not entered though its entry fits: there is
    // no other way on; then there is one, by node 5.
    let beside_high = [(0, 4), (1, 4), (2, 4), (3, 4), (4, 5)];
    let sample = from_links("star", 6, &beside_high);
    let by_high = [(b'P', 0, 3, 2), (b'L', 0, 3, 2), (b'L', 4, 3, 1)];
    alter(maker, &sample, &by_high);
    let around_high = [&beside_high[..], &[(0, 5), (3, 5)]].concat();
    let sample = from_links("star", 6, &around_high);
    alter(maker, &sample, &by_high);
    // Node 1 is taken, being smaller than 2, and leads nowhere.
    let sample = from_links("fork", 4, &[(0, 1), (0, 2), (2, 3)]);
    alter(maker, &sample, &[(b'L', 1, 3, 1)]);
}

/// An entry of a table: its letter, its row, its column, and what it becomes.
type Entry = (u8, usize, usize, usize);

/// Changes entries, then asks and walks the pair (0, 3).
fn alter(maker: &mut Maker, sample: &Sample, entries: &[Entry]) {
    // Refused 11 before the list's length is judged.
    alter_pair(maker, sample, (0, 3), entries, &[2 * sample.n, 0]);
}

/// Builds, changes entries, and asks a pair and walks it into lists of the
/// given lengths.
fn alter_pair(
    maker: &mut Maker,
    sample: &Sample,
    (a, b): (usize, usize),
    entries: &[Entry],
    lengths: &[usize],
) {
    let n = sample.n;
    maker.begin(sample);
    maker.build();
    for &(letter, row, column, entry) in entries {
        maker.put(letter, row * n + column, entry);
    }
    maker.ask(a, b);
    for &length in lengths {
        maker.number(WALK, length);
        maker.walk(a, b);
    }
}

/// Lengths around the two entries that a link's walk wants.
const LINK_LENGTHS: [usize; 4] = [0, 1, 2, 3];

/// A report of 1 for every pair: asking has no lists, and a walk is refused
/// 11 where they do not link the pair.
fn all_ones(maker: &mut Maker, sample: &Sample) {
    let n = sample.n;
    maker.begin(sample);
    maker.build();
    for place in 0..n * n {
        maker.put(b'P', place, 1);
    }
    for (a, b) in pairs(n) {
        maker.ask(a, b);
    }
    for length in LINK_LENGTHS {
        maker.number(WALK, length);
        for (a, b) in pairs(n) {
            maker.walk(a, b);
        }
    }
}

/// Tables from before linked nodes reported 1 are walked as they say.
fn before_links(maker: &mut Maker, sample: &Sample) {
    let n = sample.n;
    let older = Built::of_sample(sample, STORED).before_links(sample);
    maker.begin(sample);
    maker.build();
    for (a, b) in sample.links() {
        let report = usize::from(older.report[a * n + b]);
        maker.put(b'P', a * n + b, report);
        maker.ask(a, b);
        for length in [report + 1, report] {
            maker.number(WALK, length);
            maker.walk(a, b);
        }
    }
}

/// A report of 1 in the course survey's tables: at a node itself, and
/// elsewhere where Low attains it, or a hub, or both, or neither.
fn ones_by_hand(maker: &mut Maker) {
    let (sample, none) = (course(), usize::from(NONE));
    alter_pair(maker, &sample, (3, 3), &[(b'P', 3, 3, 1)], &LINK_LENGTHS);
    for (a, b) in [(0, 5), (1, 2), (3, 5), (1, 3)] {
        for low in [1, none] {
            for to_itself in [0, none] {
                let entries = [
                    (b'P', a, b, 1),
                    (b'L', a, b, low),
                    (b'F', a, a, to_itself),
                    (b'F', a, b, 1),
                ];
                alter_pair(maker, &sample, (a, b), &entries, &LINK_LENGTHS);
            }
        }
    }
}

/// A report of 0 for different nodes, linked and not: nothing attains it, or
/// Low does, or a hub.
fn zeros_by_hand(maker: &mut Maker) {
    for (a, b) in [(3, 5), (1, 2), (1, 3)] {
        let zero = (b'P', a, b, 0);
        let by_low = [zero, (b'L', a, b, 0)];
        let by_hub = [zero, (b'F', 4, a, 0), (b'F', 4, b, 0)];
        for entries in [&[zero][..], &by_low, &by_hub] {
            alter_pair(maker, &course(), (a, b), entries, &LINK_LENGTHS);
        }
    }
}

/// The course survey: by 0, 3 or 5 the hub is 0, by 1 it is 5, by 2 it is 1;
/// from 6 on there is none, and the report of (1, 3) is 2.
fn course_by_thresholds(maker: &mut Maker) {
    maker.begin(&course());
    for threshold in [STORED, 1, 2, 3, 5, 6, 7, 1024] {
        maker.number(THRESHOLD, threshold);
        maker.build_and_print();
        maker.test();
        for (a, b) in [
            (0, 1),
            (0, 5),
            (1, 2),
            (1, 3),
            (3, 1),
            (2, 4),
            (4, 3),
            (5, 5),
        ] {
            maker.ask(a, b);
            maker.walk(a, b);
        }
    }
}

/// Small surveys whose split changes with the threshold, joined and parted.
fn every_threshold_shapes(random: &mut Random) -> Vec<Sample> {
    vec![
        Sample::new("no link", 1),
        Sample::new("no link", 2),
        path(4),
        two_parts(5, 2),
        joined_blocks(6, 2),
        Sample::of_text("sent back", SENT_BACK),
        Sample::of_text("separate node", SEPARATE_NODE),
        random_links(random, 9, 40),
    ]
}

/// Every threshold up to one more than there are nodes.
fn every_threshold(maker: &mut Maker, sample: &Sample) {
    let n = sample.n;
    maker.begin(sample);
    for threshold in 1..=n + 1 {
        maker.number(THRESHOLD, threshold);
        maker.build_and_print();
        maker.test();
        maker.ask(0, n - 1);
        for a in 0..n {
            maker.walk(a, n - 1 - a);
        }
    }
}

/// The largest number that a line of a script can hold.
const LARGEST: usize = 9_999_999_999;

/// Thresholds above 1,024; some of them end, in binary, as a good one does.
fn refused_thresholds(maker: &mut Maker) {
    let right = exact(6, 6);
    maker.begin(&course());
    maker.build();
    for threshold in [1025, 65536, 65541, 4294967301, LARGEST] {
        // A walk stands in the list, of which nothing is left.
        maker.number(THRESHOLD, STORED);
        maker.walk(1, 3);
        maker.number(THRESHOLD, threshold);
        maker.all_calls(1, 3);
    }
    // Beside each other fault: 2 comes before 14, and 14 before the others.
    for (number, fault) in [
        (NODES, 0),
        (NODES, 1025),
        (STARTS, 6),
        (FULL, 35),
        (LOW, 35),
        (REPORT, 35),
        (HUBS, 5),
        (NEIGHBOURS, 11),
        (WALK, 4),
    ] {
        maker.number(number, fault);
        refused_and_not(maker, 1, 3);
        maker.number(number, right[number]);
    }
    refused_and_not(maker, 6, 0);
    maker.put(b'P', 6 + 3, 3);
    refused_and_not(maker, 1, 3);
    maker.number(THRESHOLD, 1024);
    maker.all_calls(1, 3);
}

/// The calls that take a threshold, with two that are refused and one that is
/// not. Building comes last, since it may write the tables anew.
fn refused_and_not(maker: &mut Maker, a: usize, b: usize) {
    for threshold in [1025, LARGEST, STORED] {
        maker.number(THRESHOLD, threshold);
        maker.walk(a, b);
        maker.test();
        maker.build();
    }
}

/// Tables built with one threshold and walked with another.
fn two_thresholds(maker: &mut Maker) {
    let pairs = [(1, 3), (3, 1), (0, 2)];
    walk_by_others(maker, &course(), &[STORED, 1, 2, 6], &pairs);
    // Nodes 1 and 2 lie between 0 and 3. From tables in which all nodes are
    // low the walk goes by 1; with threshold 3 by 2; with 2 it is refused.
    let links = [(0, 1), (0, 2), (1, 3), (2, 3), (1, 4)];
    let fork = from_links("fork", 5, &links);
    let pairs = [(0, 3), (3, 0), (4, 2)];
    walk_by_others(maker, &fork, &[1, 2, 3, 4], &pairs);
    let pairs = [(0, 8), (8, 0), (1, 7), (3, 5)];
    walk_by_others(maker, &grid(3, 3), &[2, 3, 4, 5], &pairs);
}

/// Builds with each of the thresholds, and walks pairs with each of them.
fn walk_by_others(
    maker: &mut Maker,
    sample: &Sample,
    thresholds: &[usize],
    pairs: &[(usize, usize)],
) {
    maker.begin(sample);
    for &own in thresholds {
        maker.number(THRESHOLD, own);
        maker.build();
        for &other in thresholds {
            maker.number(THRESHOLD, other);
            for &(a, b) in pairs {
                maker.walk(a, b);
            }
        }
    }
}
