//! Runs the Rattle program `reports` on many texts and holds what it prints
//! against the listing that this implementation gives.

use crate::common::Random;
use crate::comparison::{any_sample, damage, disordered_text, output_of, TEXT_BYTES};

/// Runs the program on texts made from a seed; the first that differs ends
/// the run and is printed.
pub fn run(program: &str, count: usize, seed: u64) -> Result<(), String> {
    let mut random = Random::new(seed);
    let mut listed = 0;
    for case in 0..count {
        let text = any_text(&mut random);
        let expected = reference::reports(&text);
        let printed = output_of(program, &[], &text)?;
        if printed != expected {
            let text = String::from_utf8_lossy(&text).into_owned();
            return Err(format!("case {case} of seed {seed} differs:\n{text}"));
        }
        listed += usize::from(expected.first() == Some(&b'R'));
    }
    let refused = count - listed;
    println!("{count} texts agree: {listed} listed, {refused} refused");
    Ok(())
}

fn any_text(random: &mut Random) -> Vec<u8> {
    let mut text = survey_text(random);
    for _ in 0..damages(random) {
        damage(random, &mut text, &TEXT_BYTES);
    }
    text
}

fn damages(random: &mut Random) -> usize {
    if random.percent(50) {
        0
    } else {
        1 + random.below(3)
    }
}

/// Some surveys have more nodes or links than the program takes.
fn survey_text(random: &mut Random) -> Vec<u8> {
    let n = match random.below(20) {
        0 => 1,
        1 => 100 + random.below(35),
        _ => 1 + random.below(40),
    };
    let sample = any_sample(random, n);
    disordered_text(random, &sample)
}
