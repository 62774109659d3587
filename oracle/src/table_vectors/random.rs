//! Pseudo-random records: a load now and then, and calls of every kind under what serves.

use super::Record;
use crate::axis_vectors::{self, Kind};
use crate::random::Random;
use crate::scenes::half_flings_with_resets;
use crate::tables::random_load;
use crate::words::EDGES;

/// That many pseudo-random records.
pub fn random_list(seed: u64, count: usize) -> Vec<Record> {
    let random = &mut Random::new(seed);
    let mut frames = frames(random.long(), count).into_iter().cycle();
    let mut steps = steps(random.long(), count).into_iter().cycle();
    let mut record = |_| match random.below(16) {
        0 => Record::Load(random_load(random)),
        1..=5 => Record::Exp(argument(random)),
        6..=9 => steps.next().expect("a step"),
        _ => frames.next().expect("a frame"),
    };
    (0..count).map(&mut record).collect()
}

/// Whole frames of every scene, and some more of flings, with resets among them; one at first, since the list may begin anew.
fn frames(seed: u64, count: usize) -> Vec<Record> {
    let mut records = vec![Record::Reset];
    let played = half_flings_with_resets(seed, count / 2 + 1);
    records.extend(played.into_iter().map(Record::from));
    records
}

fn steps(seed: u64, count: usize) -> Vec<Record> {
    let calls = axis_vectors::random_list(seed, count + 2).into_iter();
    let steps = calls.filter(|call| call.kind() == Kind::Step);
    steps.map(Record::Step).collect()
}

/// Down to -96, near where the entry changes, or any bits but those of another not-a-number than the one that is printed.
fn argument(random: &mut Random) -> u32 {
    let entry = -(random.below(1_025) as f32) / 64.0;
    let bits = match random.below(8) {
        0..=3 => (-96.0 * random.unit() as f32).to_bits(),
        4 | 5 => random.nudge(entry.to_bits()),
        6 => random.one_of(&EDGES),
        _ => random.word(),
    };
    if f32::from_bits(bits).is_nan() {
        f32::NAN.to_bits()
    } else {
        bits
    }
}
