//! Pseudo-random words of a frame, and numbers of a state.

use super::edges::{beyond, LATEST, LIMIT, LONGEST_DECAY, SHORTEST_DECAY};
use super::places::{
    numbers, DECAY_TIME, FACTORS, FLAGS, KINDS, NOT_NEGATIVE, PAIRS, SPEEDS, STOP_DISTANCE, TIME,
};
use super::Frame;
use crate::random::Random;
use crate::words::{EDGES, INF, NAN};

/// Numbers near which some check changes its answer.
const CENTRES: [f32; 8] = [
    0.0,
    -0.0,
    1.0,
    LIMIT,
    -LIMIT,
    SHORTEST_DECAY,
    LONGEST_DECAY,
    INF,
];

/// The frame with one word or one pair of words replaced.
pub fn mutated(random: &mut Random, frame: Frame) -> Frame {
    match random.below(16) {
        0 => small_word(random, frame),
        1 => time(random, frame),
        2..=4 => pair(random, frame),
        5 => {
            let word = FACTORS[random.below(FACTORS.len())];
            let factor = random.nudge(1.0f32.to_bits());
            frame.with(word, random.one_of(&[factor, 0, 0x8000_0000, 0x8000_0001]))
        }
        6 => style(random, frame),
        7 => {
            let word = NOT_NEGATIVE[random.below(NOT_NEGATIVE.len())];
            let bits = number(random) | random.one_of(&[0, 0x8000_0000]);
            frame.with(word, bits)
        }
        8 => {
            // Any word at all, so that no place is left out.
            let word = 1 + random.below(104);
            frame.with(word, random.word())
        }
        _ => {
            let places = numbers();
            let word = places[random.below(places.len())];
            let bits = number(random);
            let near = random.nudge(frame.word(word));
            frame.with(word, random.one_of(&[bits, bits, near]))
        }
    }
}

/// A flag or a kind, mostly with a value that some flag or kind may have.
fn small_word(random: &mut Random, frame: Frame) -> Frame {
    let kinds = KINDS.map(|(kind, _)| kind);
    let places = [&FLAGS[..], &kinds].concat();
    let word = places[random.below(places.len())];
    let bits = random.word();
    let values = [0, 1, 0, 1, 0, 1, 2, 3, 4, 5, 0x100, u32::MAX, bits];
    frame.with(word, random.one_of(&values))
}

/// The time, or one half of it.
fn time(random: &mut Random, frame: Frame) -> Frame {
    let bits = match random.below(6) {
        0 => LATEST.wrapping_add(random.below(5) as u64) - 2,
        1 => (random.unit() * 6e9).to_bits(),
        2 => (random.unit() * 10.0 - 2.0).to_bits(),
        3 => random.long(),
        4 => u64::from(number(random)) << 32 | u64::from(random.word()),
        _ => {
            let half = TIME[random.below(2)];
            return frame.with(half, number(random));
        }
    };
    frame.with_time(bits)
}

/// An end equal to its start or near it, on either side.
fn pair(random: &mut Random, frame: Frame) -> Frame {
    let (start, end) = PAIRS[random.below(PAIRS.len())];
    let from = match random.below(3) {
        0 => frame.word(start),
        _ => number(random),
    };
    let to = match random.below(4) {
        0 => from,
        1 => from ^ 0x8000_0000,
        2 => random.nudge(from),
        _ => number(random),
    };
    frame.with(start, from).with(end, to)
}

/// Words of check 5 near their limits.
fn style(random: &mut Random, frame: Frame) -> Frame {
    let decay = random.one_of(&[SHORTEST_DECAY.to_bits(), LONGEST_DECAY.to_bits()]);
    let zero = random.one_of(&[0, 1, 0x8000_0000, 0x8000_0001, 0xbf80_0000]);
    match random.below(3) {
        0 => frame.with(DECAY_TIME, random.nudge(decay)),
        1 => frame.with(STOP_DISTANCE, zero),
        _ => frame.with(SPEEDS[random.below(3)], zero),
    }
}

/// The bits of a number: mostly within the limits, else on one of them or anything.
pub fn number(random: &mut Random) -> u32 {
    match random.below(16) {
        0 => random.one_of(&EDGES),
        1 => random.word(),
        2 => random.one_of(&[NAN, INF, -INF, beyond(), -beyond()].map(f32::to_bits)),
        3..=5 => {
            let centre = random.one_of(&CENTRES.map(f32::to_bits));
            random.nudge(centre)
        }
        6..=9 => (random.unit() as f32).to_bits(),
        _ => {
            let size = f64::from(random.one_of(&[2, 100, 1000, 1 << 20]));
            let x = (random.unit() * 2.0 - 1.0) * size;
            (x as f32).to_bits()
        }
    }
}
