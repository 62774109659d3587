//! Scroll targets with every align, and scroll deltas, animated and not.

use super::stage::Stage;
use crate::axis_vectors::random_numbers::{between, near, pick, sized};
use crate::frame_vectors::Frame;
use crate::words::INF;

pub fn jumps(stage: &mut Stage) {
    let frame = stage.setting();
    stage.open(frame);
    for _ in 0..1 + stage.random.below(5) {
        let asking = asked(stage, frame);
        // A host may ask at every frame.
        for _ in 0..1 + stage.random.below(3) {
            stage.play(asking);
        }
        for _ in 0..stage.random.below(16) {
            stage.play(frame);
        }
    }
}

/// The frame with a target, a delta, or both, on one axis or two.
fn asked(stage: &mut Stage, frame: Frame) -> Frame {
    let d = stage.random.below(2);
    match stage.random.below(6) {
        0 | 1 => aimed(stage, frame, d),
        2 => {
            let frame = aimed(stage, frame, d);
            aimed(stage, frame, 1 - d)
        }
        3 => {
            let frame = aimed(stage, frame, d);
            shifted(stage, frame)
        }
        _ => shifted(stage, frame),
    }
}

/// The frame with a target among the content, in view or not.
pub fn aimed(stage: &mut Stage, frame: Frame, d: usize) -> Frame {
    let number = |word| f32::from_bits(frame.word(word));
    let (area, size) = (number(40 + d), number(82 + d));
    let begun = (area - stage.state.egui.offset[d]).clamp(-1e5, 1e5);
    let random = &mut stage.random;
    let start = begun + between(random, -20.0, size + 20.0);
    let length = pick(random, &[0.0, 18.0, 60.0, 600.0]);
    // Also ranges that begin or end where the area does.
    let (start, end) = match random.below(8) {
        0 => (area, area + length),
        1 => (near(random, area), area + length),
        2 => (number(42 + d) - length, number(42 + d)),
        _ => (start, start + length),
    };
    let flag = 91 + 7 * d;
    let frame = frame.with(flag, 1).with(flag + 3, random.below(4) as u32);
    let frame = frame.with_numbers(flag + 1, &[start, end]);
    frame.with_numbers(flag + 4, &animation(stage))
}

fn shifted(stage: &mut Stage, frame: Frame) -> Frame {
    let way = pick(&mut stage.random, &[0.5, 30.0, 400.0, 5000.0]);
    let across = between(&mut stage.random, -way, way);
    let down = between(&mut stage.random, -way, way);
    let frame = frame.with_numbers(86, &[across, down]);
    frame.with_numbers(88, &animation(stage))
}

/// Points per second, shortest and longest: egui's own, at once, by speed alone, or of any size.
fn animation(stage: &mut Stage) -> [f32; 3] {
    let random = &mut stage.random;
    let shortest = between(random, 0.0, 0.5);
    match random.below(6) {
        0 => [INF, 0.0, 0.0],
        1 => [pick(random, &[50.0, 700.0, INF]), 0.0, 1e6],
        2 => [1.0, shortest, shortest],
        3 => [sized(random, -20, 19).abs(), shortest, 2.0],
        _ => [1000.0, 0.1, 0.3],
    }
}

/// Spans without length, before their start or reversed, and a clock that crosses them.
pub fn clock_over_odd_spans(stage: &mut Stage) {
    let frame = stage.setting().with(26, 1).with_all([1, 2], 1);
    let random = &mut stage.random;
    let length = pick(random, &[0.0, -0.0, -1.0, -0.3, 0.25, 1e-6]);
    let asking = frame.with_numbers(86, &[-700.0, -700.0]);
    let asking = asking.with_numbers(89, &[length, length]);
    stage.play(asking);
    let start = stage.clock.time;
    for _ in 0..3 + stage.random.below(8) {
        let random = &mut stage.random;
        let part = match random.below(4) {
            0 => 0.0,
            1 => 1.0,
            _ => random.unit() * 1.4 - 0.2,
        };
        stage.set_clock(start + part * f64::from(length));
        stage.play(frame);
    }
}
