//! Flings with short decay times and long frames: a coast's exponent is -102.4 at the least, a spring's -1.

use super::stage::Stage;
use crate::axis_calls::SHORTEST_DECAY;
use crate::axis_vectors::random_numbers::{between, near, pick, sized, ENDS};
use crate::frame_vectors::places::{DECAY_TIME, STOP_DISTANCE};
use crate::frame_vectors::Frame;
use crate::random::Random;

/// Where the Rust cuts a frame's length.
const LONGEST_DT: f32 = 0.1;

/// Exponents, without their sign, between which exp takes none to three halvings or is 0.
const REACHES: [[f32; 2]; 5] = [
    [0.0, 16.0],
    [16.0, 32.0],
    [32.0, 64.0],
    [64.0, 80.0],
    [80.0, 102.4],
];

pub fn flings(stage: &mut Stage) {
    let mut frame = stage.setting().with_all([48, 49], 1);
    frame = frame.with(20, stage.random.one_of(&[1, 2]));
    // Content that is too large, so that a drag counts.
    frame = frame.with_numbers(82, &[900.0, 1200.0]);
    frame = frame.with_number(DECAY_TIME, decay_time(&mut stage.random));
    // Small enough that what a fling leaves coasts on; at 0 every frame coasts, however slow.
    let tiny = sized(&mut stage.random, -149, -40).abs();
    let stop = pick(&mut stage.random, &[tiny, tiny, 0.0, 0.1]);
    frame = frame.with_number(STOP_DISTANCE, stop);
    stage.open(frame);
    for _ in 0..2 + stage.random.below(5) {
        pull(stage, frame);
        fling(stage, frame);
        for _ in 0..stage.random.below(4) {
            play(stage, frame);
        }
    }
}

/// The shortest, one whose longest frame has an exponent near an end, or up to eight times the shortest.
fn decay_time(random: &mut Random) -> f32 {
    let end = pick(random, &ENDS);
    match random.below(8) {
        0..=4 => SHORTEST_DECAY,
        5 => near(random, LONGEST_DT / end),
        _ => SHORTEST_DECAY * between(random, 1.0, 8.0),
    }
}

/// A frame whose exponent is near an end or in one of the reaches; also longer than the cut.
fn play(stage: &mut Stage, frame: Frame) {
    let random = &mut stage.random;
    let decay_time = f32::from_bits(frame.word(DECAY_TIME));
    let dt = match random.below(8) {
        0 => pick(random, &[LONGEST_DT, 0.25, 30.0]),
        1 | 2 => {
            let dt = decay_time * pick(random, &ENDS);
            let beside = near(random, dt);
            pick(random, &[dt, beside])
        }
        _ => {
            let [low, high] = REACHES[random.below(REACHES.len())];
            between(random, low, high) * decay_time
        }
    };
    stage.play_for(frame, dt);
}

/// In some cases a finger draws the content first, in a few of them beyond its start or end, where a band springs.
fn pull(stage: &mut Stage, frame: Frame) {
    for _ in 0..stage.random.below(3) {
        let far = pick(&mut stage.random, &[10.0, 100.0, 2000.0]);
        let [across, down] = [0, 1].map(|_| between(&mut stage.random, -far, far));
        play(stage, frame.with(61, 1).with_numbers(57, &[across, down]));
    }
}

/// The finger lets go, at times so fast that the way is long after all.
fn fling(stage: &mut Stage, frame: Frame) {
    let speed = pick(&mut stage.random, &[800.0, 6000.0, 1e5, 1e6]);
    let [across, down] = [0, 1].map(|_| between(&mut stage.random, -speed, speed));
    play(stage, frame.with(62, 1).with_numbers(59, &[across, down]));
}
