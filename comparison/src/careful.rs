//! The same method as the proved library's, written in Rust for speed: a bit matrix when reading, one cursor for each node when
//! accepting, bit sets for hubs, breadth-first searches without a branch for each link, which end when no node is left, and for Low
//! searches from many sources at once. It serves only to compare speeds.

use reference::{Answer, Route, Tested, Verdict, NONE};

const MOST_NODES: usize = 1024;
const MOST_LINKS: usize = 16384;
const MOST_THRESHOLD: usize = 1024;
const WORDS: usize = MOST_NODES / 64;
const LANES: usize = 16;
const GROUP: usize = 16 * LANES;

type Set = [u64; WORDS];

/// Sources of a group: source j is bit j / 16 of lane j % 16.
type Lanes = [u16; LANES];

/// The lanes four to a word: of words the compiler makes a fast union.
type Packed = [u64; LANES / 4];

fn contains(set: &Set, v: usize) -> bool {
    set[v / 64] >> (v % 64) & 1 == 1
}

fn insert(set: &mut Set, v: usize) {
    set[v / 64] |= 1 << (v % 64);
}

// Reading and writing

/// How lines give the counts and the links of a survey: what they begin with, what parts their numbers, the number of the first node, and
/// whether comments stand among them; and what is refused: a line not in its form, another count of lines, and maybe a repeated link.
struct Form {
    counts: &'static [u8],
    link: &'static [u8],
    separator: u8,
    first_node: usize,
    comments: bool,
    line_form: u8,
    line_count: u8,
    repeated_link: Option<u8>,
}

const TEXT: Form = Form {
    counts: b"S,",
    link: b"L,",
    separator: b',',
    first_node: 0,
    comments: false,
    line_form: 1,
    line_count: 7,
    repeated_link: Some(6),
};

const FILE: Form = Form {
    counts: b"p edge ",
    link: b"e ",
    separator: b' ',
    first_node: 1,
    comments: true,
    line_form: 13,
    line_count: 13,
    repeated_link: None,
};

/// A number at a place, and the place after it.
fn number(text: &[u8], mut at: usize) -> Option<(u64, usize)> {
    let first = at;
    let mut value = 0;
    while at < text.len() && text[at].is_ascii_digit() && at < first + 11 {
        value = 10 * value + u64::from(text[at] - b'0');
        at += 1;
    }
    let length = at - first;
    let fits = (1..=10).contains(&length) && (length == 1 || text[first] != b'0');
    fits.then_some((value, at))
}

/// Two numbers and a line's end at a place, and the place after them.
fn numbers(text: &[u8], at: usize, separator: u8) -> Option<(u64, u64, usize)> {
    let (a, at) = number(text, at)?;
    if text.get(at) != Some(&separator) {
        return None;
    }
    let (b, at) = number(text, at + 1)?;
    (text.get(at) == Some(&b'\n')).then_some((a, b, at + 1))
}

/// The numbers of a line at a place, and the place after it.
fn line(text: &[u8], at: usize, front: &[u8], separator: u8) -> Option<(u64, u64, usize)> {
    if !text[at..].starts_with(front) {
        return None;
    }
    numbers(text, at + front.len(), separator)
}

fn check_counts(n: u64, m: u64, starts: &[u32], neighbours: &[u16]) -> Result<(usize, usize), u8> {
    if n < 1 || n > MOST_NODES as u64 {
        return Err(2);
    }
    if m > MOST_LINKS as u64 {
        return Err(3);
    }
    let (n, m) = (n as usize, m as usize);
    if starts.len() < n + 1 || neighbours.len() < 2 * m {
        return Err(8);
    }
    Ok((n, m))
}

/// The place after the comments at a place; a comment that has no end stays.
fn skip_comments(text: &[u8], mut at: usize) -> usize {
    while text.get(at) == Some(&b'c') {
        match text[at..].iter().position(|&byte| byte == b'\n') {
            Some(length) => at += length + 1,
            None => break,
        }
    }
    at
}

#[inline(always)] // so that the form is known at both places of use
fn read_as(
    form: &Form,
    text: &[u8],
    starts: &mut [u32],
    neighbours: &mut [u16],
) -> Result<(usize, usize), u8> {
    let skip = |at| {
        if form.comments {
            skip_comments(text, at)
        } else {
            at
        }
    };
    starts.fill(0);
    neighbours.fill(0);
    let counts = line(text, skip(0), form.counts, form.separator);
    let (n, m, mut at) = counts.ok_or(form.line_form)?;
    let (n, m) = check_counts(n, m, starts, neighbours)?;
    let mut rows = vec![[0u64; WORDS]; n];
    for _ in 0..m {
        at = skip(at);
        if at == text.len() && form.line_count != form.line_form {
            return Err(form.line_count);
        }
        let link = line(text, at, form.link, form.separator);
        let (a, b, next) = link.ok_or(form.line_form)?;
        // a number below the first node's becomes a large one
        let [a, b] = [a, b].map(|v| v.wrapping_sub(form.first_node as u64));
        if a >= n as u64 || b >= n as u64 {
            return Err(4);
        }
        if a == b {
            return Err(5);
        }
        let (a, b) = (a as usize, b as usize);
        if let Some(refusal) = form.repeated_link {
            if contains(&rows[a], b) {
                return Err(refusal);
            }
        }
        insert(&mut rows[a], b);
        insert(&mut rows[b], a);
        at = next;
    }
    if skip(at) < text.len() {
        return Err(form.line_count);
    }
    let used = fill_lists(&rows, starts, neighbours);
    Ok((n, used / 2))
}

pub fn read(text: &[u8], starts: &mut [u32], neighbours: &mut [u16]) -> Result<(usize, usize), u8> {
    read_as(&TEXT, text, starts, neighbours)
}

pub fn import(
    text: &[u8],
    starts: &mut [u32],
    neighbours: &mut [u16],
) -> Result<(usize, usize), u8> {
    read_as(&FILE, text, starts, neighbours)
}

/// Fills the lists, and tells how many neighbours there are.
#[inline(never)] // reading a text and reading a file are faster so
fn fill_lists(rows: &[Set], starts: &mut [u32], neighbours: &mut [u16]) -> usize {
    let mut used = 0;
    for (v, row) in rows.iter().enumerate() {
        starts[v] = used as u32;
        for (w, &word) in row.iter().enumerate() {
            let mut left = word;
            while left != 0 {
                neighbours[used] = (64 * w) as u16 + left.trailing_zeros() as u16;
                used += 1;
                left &= left - 1;
            }
        }
    }
    starts[rows.len()] = used as u32;
    used
}

fn digits(value: usize) -> usize {
    1 + usize::from(value > 9)
        + usize::from(value > 99)
        + usize::from(value > 999)
        + usize::from(value > 9999)
}

fn put_number(buffer: &mut [u8], at: usize, value: usize) -> usize {
    let end = at + digits(value);
    let mut left = value;
    for place in (at..end).rev() {
        buffer[place] = b'0' + (left % 10) as u8;
        left /= 10;
    }
    end
}

#[inline(always)] // so that the front is known at each place of use
fn put_line(
    buffer: &mut [u8],
    at: usize,
    front: &[u8],
    separator: u8,
    a: usize,
    b: usize,
) -> usize {
    let end = at + front.len();
    buffer[at..end].copy_from_slice(front);
    let at = put_number(buffer, end, a);
    buffer[at] = separator;
    let at = put_number(buffer, at + 1, b);
    buffer[at] = b'\n';
    at + 1
}

#[inline(always)] // so that the form is known at both places of use
fn write_as(
    form: &Form,
    n: usize,
    starts: &[u32],
    neighbours: &[u16],
    buffer: &mut [u8],
) -> Result<usize, u8> {
    accept(n, starts, neighbours)?;
    let m = starts[n] as usize / 2;
    let first = form.first_node;
    let mut length = form.counts.len() + 2 + digits(n) + digits(m);
    for v in 0..n {
        let own = digits(first + v);
        for &x in neighbours_of(starts, neighbours, v) {
            if v < x as usize {
                length += form.link.len() + 2 + own + digits(first + x as usize);
            }
        }
    }
    if buffer.len() < length {
        return Err(12);
    }
    let mut at = put_line(buffer, 0, form.counts, form.separator, n, m);
    for v in 0..n {
        for &x in neighbours_of(starts, neighbours, v) {
            if v < x as usize {
                let (a, b) = (first + v, first + x as usize);
                at = put_line(buffer, at, form.link, form.separator, a, b);
            }
        }
    }
    Ok(length)
}

pub fn write(n: usize, starts: &[u32], neighbours: &[u16], buffer: &mut [u8]) -> Result<usize, u8> {
    write_as(&TEXT, n, starts, neighbours, buffer)
}

pub fn export(
    n: usize,
    starts: &[u32],
    neighbours: &[u16],
    buffer: &mut [u8],
) -> Result<usize, u8> {
    write_as(&FILE, n, starts, neighbours, buffer)
}

// Acceptance

fn neighbours_of<'a>(starts: &[u32], neighbours: &'a [u16], v: usize) -> &'a [u16] {
    &neighbours[starts[v] as usize..starts[v + 1] as usize]
}

pub fn accept(n: usize, starts: &[u32], neighbours: &[u16]) -> Result<(), u8> {
    if !(1..=MOST_NODES).contains(&n) {
        return Err(2);
    }
    if starts.len() < n + 1 {
        return Err(8);
    }
    if is_survey(n, &starts[..=n], neighbours) {
        Ok(())
    } else {
        Err(9)
    }
}

fn is_survey(n: usize, starts: &[u32], neighbours: &[u16]) -> bool {
    let last = starts[n] as usize;
    if starts[0] != 0 || starts.windows(2).any(|pair| pair[1] < pair[0]) {
        return false;
    }
    if !last.is_multiple_of(2) || last / 2 > MOST_LINKS || neighbours.len() < last {
        return false;
    }
    let neighbours = &neighbours[..last];
    let mut cursors = [0u32; MOST_NODES];
    cursors[..n].copy_from_slice(&starts[..n]);
    for v in 0..n {
        let (at, end) = (cursors[v] as usize, starts[v + 1] as usize);
        if end < at {
            return false;
        }
        let (mut before, mut wrong) = (v, 0);
        for &x in &neighbours[at..end] {
            let x = x as usize;
            if x <= before || x >= n {
                return false;
            }
            let at = cursors[x] as usize;
            if at >= last {
                return false;
            }
            wrong |= neighbours[at] as usize ^ v;
            cursors[x] = at as u32 + 1;
            before = x;
        }
        if wrong != 0 {
            return false;
        }
    }
    true
}

// Building

/// Breadth-first search into a row in which allowed nodes are none and the others 0, until all `count` allowed nodes are found.
fn search(starts: &[u32], neighbours: &[u16], count: usize, source: usize, row: &mut [u16]) {
    // along chains a branch is foreseen, and the next node need not wait for the queue's end
    let thin = starts[row.len()] as usize <= 2 * row.len();
    // one place more: the place behind the queue's end is written before it is known whether a node joins
    let mut queue = [0u16; MOST_NODES + 1];
    row[source] = 0;
    queue[0] = source as u16;
    let (mut head, mut tail) = (0, 1);
    while head < tail && tail < count {
        let v = queue[head] as usize;
        let d = row[v] + 1;
        for &w in neighbours_of(starts, neighbours, v) {
            let entry = &mut row[w as usize];
            if thin && *entry != NONE {
                continue;
            }
            queue[tail] = w;
            tail += usize::from(*entry == NONE);
            *entry = (*entry).min(d);
        }
        head += 1;
    }
}

/// The set of high nodes.
fn high_nodes(n: usize, s: usize, starts: &[u32]) -> Set {
    let mut set = [0; WORDS];
    for v in 0..n {
        if (starts[v + 1] - starts[v]) as usize >= s {
            insert(&mut set, v);
        }
    }
    set
}

fn closed(starts: &[u32], neighbours: &[u16], v: usize) -> Set {
    let mut set = [0; WORDS];
    insert(&mut set, v);
    for &x in neighbours_of(starts, neighbours, v) {
        insert(&mut set, x as usize);
    }
    set
}

fn choose_hubs(n: usize, s: usize, starts: &[u32], neighbours: &[u16]) -> Vec<u16> {
    let mut uncovered = high_nodes(n, s, starts);
    let mut hubs = Vec::new();
    if uncovered == [0; WORDS] {
        return hubs;
    }
    let near: Vec<Set> = (0..n).map(|v| closed(starts, neighbours, v)).collect();
    // gains never rise: one is counted again only where the last count could make its node the best
    let mut gains = vec![u32::MAX; n];
    while uncovered != [0; WORDS] {
        let (mut best, mut most) = (0, 0);
        for (v, set) in near.iter().enumerate() {
            if gains[v] <= most {
                continue;
            }
            gains[v] = set
                .iter()
                .zip(&uncovered)
                .map(|(a, b)| (a & b).count_ones())
                .sum();
            if gains[v] > most {
                (best, most) = (v, gains[v]);
            }
        }
        hubs.push(best as u16);
        for (word, set) in uncovered.iter_mut().zip(&near[best]) {
            *word &= !set;
        }
    }
    hubs
}

/// Whether so many nodes can be split by a threshold.
fn check_split(n: usize, threshold: usize) -> Result<(), u8> {
    if !(1..=MOST_NODES).contains(&n) {
        return Err(2);
    }
    if threshold > MOST_THRESHOLD {
        return Err(14);
    }
    Ok(())
}

/// The threshold in force: the given one, or for 0 that of n nodes.
fn in_force(n: usize, threshold: usize) -> usize {
    if threshold == 0 {
        stored_threshold(n)
    } else {
        threshold
    }
}

fn stored_threshold(n: usize) -> usize {
    let digits = usize::BITS as usize - n.leading_zeros() as usize;
    (0..)
        .find(|s| s * s >= n * digits)
        .expect("some square is large enough")
}

#[allow(clippy::too_many_arguments)] // the lists are lent one by one
pub fn build(
    n: usize,
    threshold: usize,
    starts: &[u32],
    neighbours: &[u16],
    full: &mut [u16],
    low: &mut [u16],
    report: &mut [u16],
    hubs: &mut [u16],
) -> Result<usize, u8> {
    check_split(n, threshold)?;
    let size = n * n;
    if starts.len() < n + 1
        || full.len() < size
        || low.len() < size
        || report.len() < size
        || hubs.len() < n
    {
        return Err(8);
    }
    accept(n, starts, neighbours)?;
    let s = in_force(n, threshold);
    let chosen = choose_hubs(n, s, starts, neighbours);
    hubs[..n].fill(NONE);
    hubs[..chosen.len()].copy_from_slice(&chosen);
    full[..size].fill(NONE);
    for &h in &chosen {
        let h = h as usize;
        search(starts, neighbours, n, h, &mut full[h * n..(h + 1) * n]);
    }
    fill_low(n, s, starts, neighbours, &mut low[..size]);
    fill_report(n, starts, neighbours, &chosen, full, low, report);
    Ok(chosen.len())
}

/// Report row by row: the least of Low and the sums through hubs, but 0 at the node itself and 1 at its neighbours.
#[inline(always)] // building is faster so
fn fill_report(
    n: usize,
    starts: &[u32],
    neighbours: &[u16],
    hubs: &[u16],
    full: &[u16],
    low: &[u16],
    report: &mut [u16],
) {
    for a in 0..n {
        let row = &mut report[a * n..(a + 1) * n];
        row.copy_from_slice(&low[a * n..(a + 1) * n]);
        for &h in hubs {
            let other = &full[h as usize * n..(h as usize + 1) * n];
            let x = other[a];
            for (entry, &y) in row.iter_mut().zip(other) {
                *entry = (*entry).min(x.saturating_add(y));
            }
        }
        row[a] = 0;
        for &b in neighbours_of(starts, neighbours, a) {
            row[b as usize] = 1;
        }
    }
}

/// Low from many sources at once, or where that goes deep from one low node after the other.
fn fill_low(n: usize, s: usize, starts: &[u32], neighbours: &[u16], low: &mut [u16]) {
    let mut low_nodes: Set = [0; WORDS];
    for v in (0..n).filter(|&v| ((starts[v + 1] - starts[v]) as usize) < s) {
        insert(&mut low_nodes, v);
    }
    low.fill(NONE);
    if (0..n)
        .step_by(GROUP)
        .all(|base| search_group(n, starts, neighbours, &low_nodes, base, low))
    {
        return;
    }
    let is_low = |v: usize| contains(&low_nodes, v);
    let blank: Vec<u16> = (0..n).map(|v| if is_low(v) { NONE } else { 0 }).collect();
    let count = (0..n).filter(|&v| is_low(v)).count();
    for (a, row) in low.chunks_exact_mut(n).enumerate() {
        if is_low(a) {
            row.copy_from_slice(&blank);
            search(starts, neighbours, count, a, row);
            row.iter_mut()
                .zip(&blank)
                .for_each(|(x, &b)| *x |= NONE - b);
        } else {
            row.fill(NONE);
        }
    }
}

/// Searches from the low nodes of a group, level by level: for each node the sources that have reached it. Gives up where that goes deep.
fn search_group(
    n: usize,
    starts: &[u32],
    neighbours: &[u16],
    low_nodes: &Set,
    base: usize,
    low: &mut [u16],
) -> bool {
    let (mut near, mut far) = (
        &mut [[0; LANES / 4]; MOST_NODES],
        &mut [[0; LANES / 4]; MOST_NODES],
    );
    for v in (base..n.min(base + GROUP)).filter(|&v| contains(low_nodes, v)) {
        let j = v - base;
        near[v][j % LANES / 4] = 1 << (16 * (j % 4) + j / LANES);
        low[v * n + v] = 0;
    }
    for distance in 1..=GROUP as u16 {
        if !level(
            n, starts, neighbours, low_nodes, base, distance, near, far, low,
        ) {
            return true;
        }
        std::mem::swap(&mut near, &mut far);
    }
    n <= GROUP
}

#[allow(clippy::too_many_arguments)]
fn level(
    n: usize,
    starts: &[u32],
    neighbours: &[u16],
    low_nodes: &Set,
    base: usize,
    distance: u16,
    near: &[Packed; MOST_NODES],
    far: &mut [Packed; MOST_NODES],
    low: &mut [u16],
) -> bool {
    let mut more = false;
    for v in (0..n).filter(|&v| contains(low_nodes, v)) {
        let mut sum = near[v];
        for &w in neighbours_of(starts, neighbours, v) {
            sum.iter_mut()
                .zip(&near[w as usize])
                .for_each(|(x, y)| *x |= y);
        }
        far[v] = sum;
        sum.iter_mut().zip(&near[v]).for_each(|(x, y)| *x &= !y);
        if sum != [0; LANES / 4] {
            let end = n.min(base + GROUP);
            let new = std::array::from_fn(|i| (sum[i / 4] >> (16 * (i % 4))) as u16);
            mark(&new, distance, &mut low[v * n + base..v * n + end]);
            more = true;
        }
    }
    more
}

/// Gives new sources their distance, 16 of them at a time.
fn mark(new: &Lanes, distance: u16, row: &mut [u16]) {
    let mut left = new.iter().fold(0, |all, x| all | x);
    while left != 0 {
        let bit = left.trailing_zeros();
        let start = LANES * bit as usize;
        if start + LANES <= row.len() {
            mark_block(new, bit, distance, &mut row[start..start + LANES]);
        } else {
            mark_block(new, bit, distance, &mut row[start..]);
        }
        left &= left - 1;
    }
}

fn mark_block(new: &Lanes, bit: u32, distance: u16, part: &mut [u16]) {
    for (x, lane) in part.iter_mut().zip(new) {
        *x &= distance | (lane >> bit & 1).wrapping_sub(1);
    }
}

// Asking, walking and testing

pub fn ask(
    n: usize,
    full: &[u16],
    low: &[u16],
    report: &[u16],
    a: usize,
    b: usize,
) -> Result<Answer, u8> {
    if !(1..=MOST_NODES).contains(&n) {
        return Err(2);
    }
    let size = n * n;
    if full.len() < size || low.len() < size || report.len() < size {
        return Err(8);
    }
    if a >= n || b >= n {
        return Err(10);
    }
    let r = report[a * n + b];
    let route = if a == b {
        if r != 0 {
            return Err(11);
        }
        Route::Itself
    } else if r == NONE {
        Route::NoRoute
    } else if r == 1 {
        Route::Link
    } else if low[a * n + b] == r {
        Route::Low
    } else {
        let attains = |h: &usize| {
            let (x, y) = (full[h * n + a], full[h * n + b]);
            x != NONE && y != NONE && u32::from(x) + u32::from(y) == u32::from(r)
        };
        Route::Through((0..n).find(attains).ok_or(11)? as u16)
    };
    Ok(Answer { report: r, route })
}

/// The part from a node to a goal, where `left` tells each node's links to it.
fn part(
    starts: &[u32],
    neighbours: &[u16],
    limit: usize,
    left: impl Fn(usize) -> u16,
    from: usize,
    goal: usize,
) -> Option<Vec<u16>> {
    let mut nodes = vec![from as u16];
    let mut here = from;
    for d in (0..left(from)).rev() {
        let row = neighbours_of(starts, neighbours, here);
        let leads = |&&x: &&u16| {
            let degree = (starts[x as usize + 1] - starts[x as usize]) as usize;
            degree < limit && left(x as usize) == d
        };
        let &x = row.iter().find(leads)?;
        nodes.push(x);
        here = x as usize;
    }
    (here == goal).then_some(nodes)
}

/// A link's two nodes, where the lists have it.
fn link(starts: &[u32], neighbours: &[u16], a: usize, b: usize) -> Option<Vec<u16>> {
    let row = neighbours_of(starts, neighbours, a);
    let linked = row.binary_search(&(b as u16)).is_ok();
    linked.then(|| vec![a as u16, b as u16])
}

#[allow(clippy::too_many_arguments)] // the lists are lent one by one
pub fn walk(
    n: usize,
    threshold: usize,
    starts: &[u32],
    neighbours: &[u16],
    full: &[u16],
    low: &[u16],
    report: &[u16],
    a: usize,
    b: usize,
    walk: &mut [u16],
) -> Result<Answer, u8> {
    walk.fill(NONE);
    check_split(n, threshold)?;
    let size = n * n;
    if starts.len() < n + 1 || full.len() < size || low.len() < size || report.len() < size {
        return Err(8);
    }
    accept(n, starts, neighbours)?;
    let answer = ask(n, full, low, report, a, b)?;
    let nodes = match answer.route {
        Route::NoRoute => Vec::new(),
        Route::Itself => vec![a as u16],
        Route::Link => link(starts, neighbours, a, b).ok_or(11)?,
        Route::Low => {
            let s = in_force(n, threshold);
            part(starts, neighbours, s, |x| low[x * n + b], a, b).ok_or(11)?
        }
        Route::Through(h) => {
            let row = &full[h as usize * n..(h as usize + 1) * n];
            let mut nodes = part(starts, neighbours, n, |x| row[x], a, h as usize).ok_or(11)?;
            let back = part(starts, neighbours, n, |x| row[x], b, h as usize).ok_or(11)?;
            nodes.extend(back.iter().rev().skip(1));
            nodes
        }
    };
    if walk.len() < nodes.len() {
        return Err(8);
    }
    walk[..nodes.len()].copy_from_slice(&nodes);
    Ok(answer)
}

pub fn test(n: usize, threshold: usize, starts: &[u32], neighbours: &[u16]) -> Result<Tested, u8> {
    check_split(n, threshold)?;
    accept(n, starts, neighbours)?;
    let s = in_force(n, threshold);
    let first_low = (0..n).find(|&v| ((starts[v + 1] - starts[v]) as usize) < s);
    let sources = match first_low {
        None => choose_hubs(n, s, starts, neighbours),
        Some(v) => [&[v as u16], neighbours_of(starts, neighbours, v)].concat(),
    };
    let mut row = vec![NONE; n];
    let mut depth = 0;
    for &v in &sources {
        row.fill(NONE);
        search(starts, neighbours, n, v as usize, &mut row);
        depth = row.iter().fold(depth, |most, &x| most.max(x));
        if depth == NONE {
            break;
        }
    }
    let verdict = match depth {
        NONE => Verdict::Parted,
        0..=2 => Verdict::Short,
        _ => Verdict::Long,
    };
    Ok(Tested {
        verdict,
        searches: sources.len(),
    })
}
