//! Pseudo-random calls, one of each kind in turn.

use super::{split, Call, CALLS};
use crate::random::Random;
use crate::words::EDGES;

/// Numbers near which answers change their kind.
const HARD: [f32; 16] = [
    0.5,
    1.5,
    2.0,
    -3.0,
    10.0,
    64.0,
    -100.0,
    300.0,
    -16.0,
    -0.015625,
    0.1,
    8_388_608.0,
    -16_777_216.0,
    1e8,
    1e-20,
    1e20,
];

/// A hard value.
fn hard_word(random: &mut Random) -> u32 {
    if random.below(2) == 0 {
        random.one_of(&EDGES)
    } else {
        random.one_of(&HARD.map(f32::to_bits))
    }
}

/// A number of ordinary size, with more or fewer binary places.
fn ordinary_word(random: &mut Random) -> u32 {
    let whole = random.below(1 << 21) as f32 - 1_048_576.0;
    let places = (1u32 << random.below(20)) as f32;
    (whole / places).to_bits()
}

/// Any number: hard, near a hard one, near an earlier operand, of random bits, or ordinary.
fn any_word(random: &mut Random, earlier: &[u32]) -> u32 {
    match random.below(10) {
        0 | 1 => hard_word(random),
        2 => {
            let bits = hard_word(random);
            random.nudge(bits)
        }
        3 => random.word(),
        4 | 5 if !earlier.is_empty() => {
            let bits = random.one_of(earlier);
            random.nudge(bits)
        }
        6 if !earlier.is_empty() => random.one_of(earlier) ^ 0x8000_0000,
        _ => ordinary_word(random),
    }
}

/// Operands for a call of several numbers; in a quarter of the calls all of ordinary size.
fn any_words(random: &mut Random, count: usize) -> Vec<u32> {
    let ordinary = random.below(4) == 0;
    let mut words = Vec::new();
    for _ in 0..count {
        let word = if ordinary {
            ordinary_word(random)
        } else {
            any_word(random, &words)
        };
        words.push(word);
    }
    words
}

/// A number from 0 to 1 or near these ends, else any.
fn unit_word(random: &mut Random) -> u32 {
    match random.below(4) {
        0 => any_word(random, &[]),
        1 => random.one_of(&[0x3f80_0000, 0x3f00_0000]) - random.below(0x2000) as u32,
        _ => (random.unit() as f32).to_bits(),
    }
}

/// A number from -16 to 0 or from -100, near where the table or the number of halvings changes, or any.
fn exp_word(random: &mut Random) -> u32 {
    match random.below(12) {
        0 => any_word(random, &[]),
        1 | 2 => {
            // A multiple of 1/64, or what one to three halvings make one.
            let parts = (64 >> random.below(4)) as f32;
            let bits = (random.below(1026) as f32 / -parts).to_bits();
            random.nudge(bits)
        }
        3 => {
            let bits = random.one_of(&[-16.0, -32.0, -64.0, -80.0f32].map(f32::to_bits));
            random.nudge(bits)
        }
        4 => 0x8000_0000 | random.below(0x4180_0002) as u32,
        5..=7 => ((random.unit() * -16.1) as f32).to_bits(),
        _ => ((random.unit() * -100.0) as f32).to_bits(),
    }
}

/// An f64: near the middle of two f32, a widened f32, with an exponent near the f32's, or random bits.
fn any_wide(random: &mut Random) -> f64 {
    let bits = any_word(random, &[]);
    let wide = f64::from(f32::from_bits(bits)).to_bits();
    let sign = random.long() & 1 << 63;
    let fraction = random.long() >> 12;
    let steps = random.below(5) as u64;
    match random.below(5) {
        0 => f64::from_bits((wide ^ 1 << 28).wrapping_add(steps).wrapping_sub(2)),
        1 => f64::from_bits(wide.wrapping_add(steps).wrapping_sub(2)),
        2 => {
            // A tie among the subnormals: the half bit set, none below it.
            let place = random.below(24) as u64;
            let kept = fraction & !((2 << (28 + place)) - 1) | 1 << (28 + place);
            let low = steps.saturating_sub(2);
            f64::from_bits(sign | (897 - place) << 52 | (kept | low) & ((1 << 52) - 1))
        }
        3 => f64::from_bits(sign | (870 + random.below(290) as u64) << 52 | fraction),
        _ => f64::from_bits(random.long()),
    }
}

/// The operands of interpolation_factor: mostly a span, a time near it and a short step.
fn span_words(random: &mut Random) -> Vec<u32> {
    let far = [0.0, 1.0, 1e3, 4_294_967_000.0][random.below(4)];
    let start = far * random.unit();
    let length = [0.0, 0.1, 0.3, 1.0, -0.2, 1e-9, 100.0 * random.unit()][random.below(7)];
    let end = start + length;
    let time = match random.below(6) {
        0 => start,
        1 => end,
        2 => start + length * (1.0 - 1e-3 * random.unit()),
        _ => start + length * (random.unit() * 1.5 - 0.25),
    };
    let dt = match random.below(4) {
        0 => any_word(random, &[]),
        1 => random.one_of(&[0, 0x3dcc_cccd, 0x3c88_8889]),
        2 => ((length * 1e-3 * random.unit()) as f32).to_bits(),
        _ => ((random.unit() * 0.1) as f32).to_bits(),
    };
    let mut times = [start, end, time];
    if random.below(8) == 0 {
        times[random.below(3)] = any_wide(random);
    }
    [times.map(split).concat(), vec![dt]].concat()
}

/// Two ends in order and a number near one of them or in the middle.
fn held_words(random: &mut Random) -> [u32; 3] {
    let ends = any_words(random, 2);
    let (first, second) = (f32::from_bits(ends[0]), f32::from_bits(ends[1]));
    let (low, high) = if second < first {
        (second, first)
    } else {
        (first, second)
    };
    let middle = low / 2.0 + high / 2.0;
    let near = random.one_of(&[low, high, middle].map(f32::to_bits));
    [low.to_bits(), high.to_bits(), random.nudge(near)]
}

/// A rectangle and a point, mostly near a corner or inside.
fn point_words(random: &mut Random) -> Vec<u32> {
    let (across, down) = (held_words(random), held_words(random));
    (0..3).flat_map(|part| [across[part], down[part]]).collect()
}

/// The operands of a random call.
fn random_words(random: &mut Random, name: &str, count: usize) -> Vec<u32> {
    match name {
        "flag_as_number" => vec![random.below(2) as u32],
        "align_factor" => vec![random.below(3) as u32],
        "narrow" => split(any_wide(random)),
        "interpolation_factor" => span_words(random),
        "ease_in_ease_out" => vec![unit_word(random)],
        "exp" => vec![exp_word(random)],
        "range_contains" if random.below(2) == 0 => held_words(random).to_vec(),
        "rect_contains" if random.below(4) != 0 => point_words(random),
        "lerp" => {
            let mut words = any_words(random, count);
            words[2] = unit_word(random);
            words
        }
        _ => any_words(random, count),
    }
}

/// That many pseudo-random calls.
pub fn random_list(seed: u64, count: usize) -> Vec<Call> {
    let mut random = Random::new(seed);
    let in_rotation = CALLS.iter().cycle().take(count);
    in_rotation
        .map(|(name, used)| Call::new(name, &random_words(&mut random, name, *used)))
        .collect()
}
