//! A survey written and read again is the same survey.

mod common;

use common::{Built, Random, Sample};
use reference::{read, write};

/// Reads the text into lists with spare entries and checks what is left.
fn read_checked(text: &[u8], spare: usize) -> (usize, usize, Vec<u32>, Vec<u16>) {
    let (mut starts, mut neighbours) = (vec![9; 1025 + spare], vec![9; 32768 + spare]);
    let (n, m) = read(text, &mut starts, &mut neighbours).unwrap();
    assert!(starts[n + 1..].iter().all(|&entry| entry == 0));
    assert!(neighbours[2 * m..].iter().all(|&entry| entry == 0));
    starts.truncate(n + 1);
    neighbours.truncate(2 * m);
    (n, m, starts, neighbours)
}

fn written(n: usize, starts: &[u32], neighbours: &[u16]) -> Vec<u8> {
    let mut buffer = vec![b'#'; 300_000];
    let length = write(n, starts, neighbours, &mut buffer).unwrap();
    assert!(buffer[length..].iter().all(|&byte| byte == b'#'));
    buffer.truncate(length);
    buffer
}

/// The link lines in random order, some ends turned round.
fn disordered(sample: &Sample, random: &mut Random) -> String {
    let mut links = sample.links();
    random.shuffle(&mut links);
    for link in &mut links {
        if random.percent(50) {
            *link = (link.1, link.0);
        }
    }
    common::text_of(sample.n, &links)
}

fn check(sample: &Sample, random: &mut Random) {
    let (starts, neighbours) = sample.lists();
    let text = written(sample.n, &starts, &neighbours);
    assert_eq!(text, sample.text().as_bytes(), "{}", sample.name);
    let m = sample.links().len();
    let expected = (sample.n, m, starts, neighbours);
    assert_eq!(read_checked(&text, 0), expected, "{}", sample.name);
    let other = disordered(sample, random);
    let found = read_checked(other.as_bytes(), 3);
    assert_eq!(found, expected, "{}", sample.name);
    assert_eq!(written(found.0, &found.2, &found.3), text);
    check_exact_lists(&text, &expected);
}

/// The lists may have exactly the entries that are used.
fn check_exact_lists(text: &[u8], expected: &(usize, usize, Vec<u32>, Vec<u16>)) {
    let (n, m, starts, neighbours) = expected;
    let (mut exact_starts, mut exact_neighbours) = (vec![9; n + 1], vec![9; 2 * m]);
    let counts = read(text, &mut exact_starts, &mut exact_neighbours);
    assert_eq!(counts, Ok((*n, *m)));
    assert_eq!((&exact_starts, &exact_neighbours), (starts, neighbours));
    let mut exact_buffer = vec![0; text.len()];
    let length = write(*n, starts, neighbours, &mut exact_buffer);
    assert_eq!(length, Ok(text.len()));
    assert_eq!(exact_buffer, text);
}

#[test]
fn small_and_larger_graphs() {
    let mut random = Random::new(4);
    let mut samples = common::small_samples(5);
    samples.extend(common::larger_samples(6));
    for sample in &samples {
        check(sample, &mut random);
    }
}

/// As many nodes and links as a survey may have.
#[test]
fn largest_survey() {
    let mut random = Random::new(7);
    let mut sample = Sample::new("largest", 1024);
    // 150 nodes with many neighbours, so that there are hubs.
    for a in 0..150 {
        for b in 0..a {
            if random.percent(90) {
                sample.link(a, b);
            }
        }
    }
    let mut count = sample.links().len();
    while count < 16384 {
        let (a, b) = (random.below(1024), random.below(1024));
        if a != b && !sample.linked[a][b] {
            sample.link(a, b);
            count += 1;
        }
    }
    let sample = sample.renumbered(&mut random);
    check(&sample, &mut random);
    for threshold in common::thresholds(1024) {
        let built = Built::of_sample(&sample, threshold);
        // No node of 1,024 has 1,024 neighbours.
        assert_eq!(built.hub_count > 0, threshold < 1024);
        assert!(built.test().is_ok());
    }
}

/// Entries past those that a survey uses are not looked at.
#[test]
fn further_entries_hold_anything() {
    let (mut starts, mut neighbours) = common::path(5).lists();
    let text = written(5, &starts, &neighbours);
    starts.extend([3, 0, u32::MAX]);
    neighbours.extend([0, 9999, 65535]);
    assert_eq!(written(5, &starts, &neighbours), text);
}
