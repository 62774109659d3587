//! Pseudo-random calls, one of each kind in turn.

use super::place::{DECAY_TIME, EXTENT, MAX, MIN, STOP_DISTANCE};
use super::random_numbers::{
    between, delta, dt, near, offset, pick, scene, signed, sized, velocity,
};
use super::scene::{Scene, Wheel, MOMENTUM, TRACKPAD};
use super::{Call, Kind};
use crate::axis_calls::{LIMIT, LONGEST_DECAY, SHORTEST_DECAY};
use crate::numbers::max;
use crate::random::Random;
use crate::words::{away, EDGES, INF, LARGEST, NAN, SMALLEST};

/// That many pseudo-random calls.
pub fn random_list(seed: u64, count: usize) -> Vec<Call> {
    let mut random = Random::new(seed);
    let in_rotation = Kind::ALL.into_iter().cycle().take(count);
    in_rotation
        .map(|kind| random_call(&mut random, kind))
        .collect()
}

/// A call that may occur; in a quarter of the cases with a hostile word or two.
fn random_call(random: &mut Random, kind: Kind) -> Call {
    let scene = scene(random);
    let mut call = match kind {
        Kind::Drag => drag(random, &scene),
        Kind::Step => step(random, &scene),
        Kind::Wheel => wheel(random, &scene),
    };
    if random.below(4) == 0 {
        call = spoiled(random, &call);
        if random.below(3) == 0 {
            call = spoiled(random, &call);
        }
    }
    call
}

fn drag(random: &mut Random, scene: &Scene) -> Call {
    let offset = offset(random, scene);
    let delta = delta(random, scene, offset);
    scene.drag(offset, delta)
}

/// Mostly a step that may occur; the others leave the finite numbers or stand where a spring settles.
fn step(random: &mut Random, scene: &Scene) -> Call {
    let (dt, hold) = (dt(random, scene), random.below(6) == 0);
    match random.below(24) {
        0 => {
            let (offset, velocity) = (sized(random, 118, 128), sized(random, 118, 128));
            scene.step(offset, velocity, dt, hold)
        }
        1 => {
            // The distance coasted is finite and the sum with the offset may not be.
            let velocity = LARGEST / max(scene.decay_time, 1.0);
            let sign = signed(random, 1.0);
            let offset = sized(random, 126, 128).abs() * sign;
            let dt = between(random, 0.5, 20.0) * scene.decay_time;
            scene.step(offset, velocity * sign, dt, hold)
        }
        2 => {
            let out = near(random, scene.stop_distance) * pick(random, &[1.0, 0.5]);
            let end = pick(random, &[scene.min - out, scene.max + out]);
            let fast = near(random, scene.stop_distance * 10.0);
            let velocity = pick(random, &[0.0, fast, -fast]);
            scene.step(end, velocity, pick(random, &[0.0, -0.0]), hold)
        }
        _ => {
            let offset = offset(random, scene);
            scene.step(offset, velocity(random, scene), dt, hold)
        }
    }
}

/// A wheel call, mostly of a trackpad.
fn wheel(random: &mut Random, scene: &Scene) -> Call {
    let offset = offset(random, scene);
    let source = match random.below(8) {
        0..=2 => MOMENTUM,
        3 | 4 => TRACKPAD,
        _ => random.below(5) as u32,
    };
    scene.wheel(Wheel {
        offset,
        velocity: velocity(random, scene),
        delta: delta(random, scene, offset),
        source,
        can_chain: random.below(2) == 0,
        dt: dt(random, scene),
        bounced: random.below(3) == 0,
    })
}

/// The call with one word that a refusal asks about.
fn spoiled(random: &mut Random, call: &Call) -> Call {
    let kind = call.kind;
    match random.below(6) {
        0 => {
            let own = [MIN, MAX, EXTENT, DECAY_TIME, STOP_DISTANCE];
            let places = [&own, kind.moves()].concat();
            let place = places[random.below(places.len())];
            call.with(place, out_of_range(random))
        }
        1 => call.with(MAX, below(random, call.float(MIN))),
        2 => match kind.time() {
            Some(place) => {
                let x = below(random, 0.0);
                call.with(place, x)
            }
            None => call.with(MIN, -below(random, -call.float(MAX))),
        },
        3 => call.with(DECAY_TIME, wrong_decay(random)),
        4 => call.with(STOP_DISTANCE, below(random, 0.0)),
        _ => {
            let place = kind.held()[random.below(kind.held().len())];
            call.with(place, not_finite(random))
        }
    }
}

/// A word that check 3 may refuse.
fn out_of_range(random: &mut Random) -> f32 {
    match random.below(6) {
        0 => near(random, LIMIT),
        1 => near(random, -LIMIT),
        2 => pick(random, &[NAN, INF, -INF]),
        3 => sized(random, 18, 128),
        4 => f32::from_bits(random.one_of(&EDGES)),
        _ => f32::from_bits(random.word()),
    }
}

/// A number below or, in some cases, equal: by one step, by little, by much.
fn below(random: &mut Random, x: f32) -> f32 {
    let step = if x > 0.0 { -1 } else { 1 };
    match random.below(6) {
        0 => x,
        1 if x == 0.0 => pick(random, &[-0.0, -SMALLEST]),
        1 | 2 if x != 0.0 => away(x, step),
        3 => x - 1e-3,
        4 => x - sized(random, -149, 10).abs(),
        _ => x - sized(random, -10, 19).abs(),
    }
}

/// A decay_time around or outside its ends.
fn wrong_decay(random: &mut Random) -> f32 {
    match random.below(5) {
        0 => near(random, SHORTEST_DECAY),
        1 => near(random, LONGEST_DECAY),
        2 => sized(random, -149, -10),
        3 => sized(random, 10, 19),
        _ => pick(random, &[0.0, -0.0, -1.0, SMALLEST]),
    }
}

/// A word that check 6 may refuse.
fn not_finite(random: &mut Random) -> f32 {
    match random.below(4) {
        0 => pick(random, &[INF, -INF]),
        1 => f32::from_bits(0x7f80_0001 + random.below(0x007f_ffff) as u32),
        2 => f32::from_bits(0xff80_0000 | random.word()),
        _ => f32::from_bits(random.one_of(&EDGES)),
    }
}
