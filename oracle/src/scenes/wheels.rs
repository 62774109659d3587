//! Wheels and trackpads of every source, with and without a parent.

use super::stage::Stage;
use crate::axis_vectors::random_numbers::{between, pick, signed};
use crate::frame_vectors::Frame;

pub fn gestures(stage: &mut Stage) {
    let frame = stage.setting().with_all([21, 48], 1);
    stage.open(frame);
    for _ in 0..1 + stage.random.below(4) {
        match stage.random.below(4) {
            0 => notches(stage, frame),
            _ => swipe(stage, frame),
        }
        for _ in 0..stage.random.below(6) {
            stage.play(frame);
        }
    }
}

/// The frame with the pointer over the area, at its edge, outside, or nowhere.
pub fn pointed(stage: &mut Stage, frame: Frame) -> Frame {
    let numbers = [40, 41, 42, 43].map(|word| f32::from_bits(frame.word(word)));
    let [left, top, right, bottom] = numbers;
    let random = &mut stage.random;
    let (x, y) = match random.below(16) {
        0 => return frame.with(54, 0),
        1 => (left, top),
        2 => (right, bottom),
        3 => (right + 500.0, top),
        _ => (
            left + (right - left) * between(random, 0.0, 1.0),
            top + (bottom - top) * between(random, 0.0, 1.0),
        ),
    };
    frame.with(54, 1).with_numbers(55, &[x, y])
}

/// The frame with a wheel delta of some source.
pub fn turned(stage: &mut Stage, frame: Frame, delta: [f32; 2]) -> Frame {
    let frame = pointed(stage, frame);
    let source = stage.random.below(5) as u32;
    frame.with(63, source).with_numbers(64, &delta)
}

/// Single notches of a wheel, or of a source that is not known.
fn notches(stage: &mut Stage, frame: Frame) {
    let size = pick(&mut stage.random, &[12.5, 50.0, 400.0]);
    for _ in 0..1 + stage.random.below(6) {
        let down = signed(&mut stage.random, size);
        let across = pick(&mut stage.random, &[0.0, -0.0, size]);
        let frame = pointed(stage, frame);
        let source = stage.random.one_of(&[0, 1, 2, 2]);
        stage.play(frame.with(63, source).with_numbers(64, &[across, down]));
    }
}

/// Fingers on a trackpad that move and rest, then the momentum that the system makes of it.
fn swipe(stage: &mut Stage, frame: Frame) {
    let size = pick(&mut stage.random, &[2.0, 15.0, 60.0, 300.0]);
    let mut down = signed(&mut stage.random, size);
    let across = between(&mut stage.random, -size, size);
    let mut frame = pointed(stage, frame);
    for _ in 0..stage.random.below(8) {
        let delta = match stage.random.below(8) {
            0 => [0.0, 0.0],
            // Back again, across the edge too.
            1 => [-across, -1.5 * down],
            _ => [across, down],
        };
        stage.play(frame.with(63, 3).with_numbers(64, &delta));
    }
    if stage.one_in(4) {
        frame = pointed(stage, frame);
    }
    for step in 0..stage.random.below(12) {
        let mut left = across / (1.0 + step as f32);
        if stage.one_in(10) {
            down = -down;
        }
        if stage.one_in(10) {
            left = 0.0;
        }
        stage.play(frame.with(63, 4).with_numbers(64, &[left, down]));
        down *= 0.8;
    }
}
