//! Pseudo-random numbers as an axis meets them, and near where its answers change their kind.

use super::scene::Scene;
use crate::axis_calls::{LIMIT, LONGEST_DECAY, SHORTEST_DECAY};
use crate::random::Random;
use crate::words::{LARGEST, SMALLEST};

pub fn pick(random: &mut Random, numbers: &[f32]) -> f32 {
    numbers[random.below(numbers.len())]
}

/// The number or one at most three steps above or below it, across 0 too.
pub fn near(random: &mut Random, x: f32) -> f32 {
    let steps = random.below(7) as i32 - 3;
    if steps == 0 {
        return x;
    }
    let magnitude = x.abs().to_bits() as i32;
    let place = if x < 0.0 { -magnitude } else { magnitude } + steps;
    let found = f32::from_bits(place.unsigned_abs());
    if place < 0 {
        -found
    } else {
        found
    }
}

/// The number with either sign.
pub fn signed(random: &mut Random, x: f32) -> f32 {
    if random.below(2) == 0 {
        x
    } else {
        -x
    }
}

/// A number from low to high, in a third of the cases a whole number of eighths.
pub fn between(random: &mut Random, low: f32, high: f32) -> f32 {
    let x = low + (high - low) * random.unit() as f32;
    if random.below(3) == 0 {
        (x * 8.0).round() / 8.0
    } else {
        x
    }
}

/// A number of either sign whose exponent is as likely to be any from low to below high.
pub fn sized(random: &mut Random, low: i32, high: i32) -> f32 {
    let exponent = low + random.below((high - low) as usize) as i32;
    let power = f64::from_bits(((1023 + exponent) as u64) << 52);
    let size = (1.0 + random.unit()) * power;
    signed(random, size as f32)
}

/// A zero, a subnormal, or a number whose products become subnormal.
fn tiny(random: &mut Random) -> f32 {
    let x = match random.below(4) {
        0 => pick(random, &[0.0, SMALLEST]),
        1 => f32::from_bits(random.below(0x0080_0000) as u32),
        2 => sized(random, -80, -60),
        _ => sized(random, -149, -20),
    };
    signed(random, x)
}

/// An axis: mostly bounds from 0 to some hundreds, an ordinary extent and style.
pub fn scene(random: &mut Random) -> Scene {
    let min = match random.below(8) {
        0 => -0.0,
        1 => between(random, -500.0, 500.0),
        2 => sized(random, -20, 19),
        _ => 0.0,
    };
    let length = match random.below(8) {
        0 => 0.0,
        1 => tiny(random).abs(),
        2 => between(random, 0.0, 500_000.0),
        _ => between(random, 0.0, 900.0),
    };
    let (min, max) = match random.below(8) {
        0 => (-length, signed(random, 0.0)),
        _ if length == 0.0 => (min, min),
        _ => (min, min + length),
    };
    Scene {
        min,
        max,
        extent: extent(random),
        decay_time: decay_time(random),
        stop_distance: stop_distance(random),
        rubber_band: random.below(4) != 0,
    }
}

fn extent(random: &mut Random) -> f32 {
    match random.below(10) {
        0 => pick(random, &[0.0, -0.0]),
        1 => between(random, -500.0, 0.0),
        2 => tiny(random),
        3 => sized(random, -20, 20),
        _ => between(random, 1.0, 800.0),
    }
}

fn decay_time(random: &mut Random) -> f32 {
    match random.below(4) {
        0 => pick(random, &[SHORTEST_DECAY, LONGEST_DECAY]),
        1 => sized(random, -10, 10).abs(),
        2 => between(random, 0.05, 2.0),
        _ => pick(random, &[0.1, 0.325, 0.5, 1.0]),
    }
}

fn stop_distance(random: &mut Random) -> f32 {
    match random.below(6) {
        0 => pick(random, &[0.0, -0.0]),
        1 => sized(random, -30, 20).abs(),
        2 => between(random, 0.0, 40.0),
        _ => pick(random, &[0.1, 0.5, 1.0, 2.0]),
    }
}

/// An offset: inside, near an end, beyond it, tiny, or huge.
pub fn offset(random: &mut Random, scene: &Scene) -> f32 {
    let end = pick(random, &[scene.min, scene.max]);
    match random.below(16) {
        0..=3 => between(random, scene.min, scene.max),
        4 => near(random, end),
        5 => signed(random, end),
        6..=9 => end + between(random, -60.0, 60.0),
        10 | 11 => end + between(random, -1.2, 1.2) * scene.extent,
        12 => end + between(random, -1.2, 1.2) * scene.stop_distance,
        13 => tiny(random),
        14 => sized(random, 10, 50),
        _ => sized(random, 100, 128),
    }
}

/// A delta: small, zero, as far as an end or as the way back from beyond it, tiny, or large.
pub fn delta(random: &mut Random, scene: &Scene, offset: f32) -> f32 {
    let end = pick(random, &[scene.min, scene.max]);
    let x = match random.below(16) {
        0..=5 => between(random, -40.0, 40.0),
        6 | 7 => between(random, -400.0, 400.0),
        8 => signed(random, 0.0),
        9 | 10 => near(random, end - offset),
        11 | 12 => {
            let out = offset - offset.clamp(scene.min, scene.max);
            let left = 1.0 - out.abs() / scene.extent;
            let back = near(random, -out / (0.55 * (left * left)));
            back * pick(random, &[1.0, 1.0, 1.01, 0.99, 2.0])
        }
        13 => tiny(random),
        14 => between(random, -LIMIT, LIMIT),
        _ => sized(random, -20, 20),
    };
    // A way that is not known or too long would only be refused.
    if x.abs() <= LIMIT {
        x
    } else {
        between(random, -40.0, 40.0)
    }
}

/// A velocity: ordinary, zero, near where a coast rests or a spring settles, tiny, or huge.
pub fn velocity(random: &mut Random, scene: &Scene) -> f32 {
    let x = match random.below(16) {
        0..=6 => between(random, 0.0, 2000.0),
        7 => 0.0,
        8 | 9 => near(random, scene.stop_distance / scene.decay_time),
        10 => near(random, scene.stop_distance * 10.0),
        11 => between(random, 0.0, 2.0) * scene.stop_distance,
        12 => tiny(random),
        13 => near(random, LARGEST / scene.decay_time),
        14 => sized(random, 20, 100),
        _ => sized(random, 100, 128),
    };
    let x = signed(random, x);
    if x.is_finite() {
        x
    } else {
        LARGEST
    }
}

/// Exponents, without their sign, at which exp takes one halving more, and beyond which it is 0.
pub const ENDS: [f32; 4] = [16.0, 32.0, 64.0, 80.0];

/// A dt: none, a frame's, near where the exponent reaches an end, with an exponent down to -16 or to -96, or of any size.
pub fn dt(random: &mut Random, scene: &Scene) -> f32 {
    // What the exponent divides dt by: the coast's time or the spring's.
    let time = pick(random, &[scene.decay_time, 0.1]);
    match random.below(12) {
        0 => pick(random, &[0.0, -0.0]),
        1..=3 => pick(random, &[0.016, 1.0 / 60.0, 1.0 / 120.0, 0.1]),
        4 | 5 => between(random, 0.0, 0.1),
        6 | 7 => {
            let end = pick(random, &ENDS);
            near(random, end * time)
        }
        8 => between(random, 0.0, 16.0) * time,
        9 | 10 => between(random, 0.0, 96.0) * time,
        _ => sized(random, -149, 20).abs(),
    }
}
