//! Presses on the bars: on the handle and beside it, held and moved, on ordinary and narrow bars.

use super::stage::Stage;
use crate::axis_vectors::random_numbers::{between, near, pick, sized};
use crate::frame_vectors::Frame;

pub fn presses(stage: &mut Stage) {
    let mut frame = stage.setting();
    if stage.random.below(4) != 0 {
        frame = frame.with_numbers(66, &[1.0, 1.0]);
        frame = frame.with(9, stage.random.one_of(&[1, 2]));
    }
    // The first frame shows where the handles are.
    stage.open(frame);
    for _ in 0..1 + stage.random.below(4) {
        let d = stage.random.below(2);
        press_and_move(stage, frame, d);
        for _ in 0..stage.random.below(4) {
            let free = hovered(stage, frame, d);
            stage.play(free);
        }
    }
}

/// The frame with the bar pressed at that point.
pub fn pressed(frame: Frame, d: usize, point: [f32; 2]) -> Frame {
    let word = 72 + 5 * d;
    let frame = frame.with_all([word, word + 1, word + 2], 1);
    frame.with_numbers(word + 3, &point)
}

fn hovered(stage: &mut Stage, frame: Frame, d: usize) -> Frame {
    let word = 72 + 5 * d;
    let over = stage.random.one_of(&[0, 1]);
    let mut frame = frame.with(word, over);
    if stage.one_in(4) {
        let factor = stage.random.unit() as f32;
        frame = frame.with_number(66 + d, factor);
    }
    frame
}

/// A point on the handle, on its corner, beside it along or across, or anywhere.
fn aim(stage: &mut Stage, frame: Frame, d: usize) -> [f32; 2] {
    let number = |word| f32::from_bits(frame.word(word));
    let anywhere = [
        between(&mut stage.random, number(40), number(42)),
        between(&mut stage.random, number(41), number(43)),
    ];
    let Some(handle) = stage.handle_rects[d] else {
        return anywhere;
    };
    let random = &mut stage.random;
    let on = [
        between(random, handle.min.x, handle.max.x),
        between(random, handle.min.y, handle.max.y),
    ];
    let mut point = match random.below(8) {
        0 => [handle.min.x, handle.min.y],
        1 => [handle.max.x, near(random, handle.max.y)],
        2 => anywhere,
        3 | 4 => {
            let mut beside = on;
            beside[d] = anywhere[d];
            beside
        }
        _ => on,
    };
    for x in &mut point {
        // A handle far away would only be refused.
        *x = x.clamp(-1e6, 1e6);
    }
    point
}

fn press_and_move(stage: &mut Stage, frame: Frame, d: usize) {
    let mut point = aim(stage, frame, d);
    for _ in 0..1 + stage.random.below(8) {
        let played = match stage.random.below(20) {
            // The bar goes while it is held, or its content changes.
            0 => pressed(frame, d, point).with_number(66 + d, 0.0),
            1 => pressed(frame, d, point).with_number(82 + d, 1200.0),
            _ => pressed(frame, d, point),
        };
        stage.play(played);
        let far = pick(&mut stage.random, &[2.0, 20.0, 200.0]);
        point[d] += between(&mut stage.random, -far, far);
        point[1 - d] += between(&mut stage.random, -2.0, 2.0);
    }
}

/// Bars shorter than their handle or almost without length, where checks 7 and 8 apply.
pub fn presses_on_narrow_bars(stage: &mut Stage) {
    let frame = stage.setting().with_numbers(66, &[1.0, 1.0]);
    let frame = frame.with_all([1, 2, 48], 1);
    let frame = frame.with_numbers(82, &[900.0, 1200.0]);
    let d = stage.random.below(2);
    let narrow = narrowed(stage, frame, d);
    stage.open(narrow);
    // Stretched beyond an end the offset of a press is not clamped.
    let stretch = stage.one_in(2);
    let held = if stretch { dragged(narrow) } else { narrow };
    for _ in 0..2 + stage.random.below(6) {
        let along = between(&mut stage.random, -3.0, 15.0);
        let point = match stage.random.below(4) {
            0 => [f32::from_bits(narrow.word(11 + d)); 2],
            1 => [along; 2],
            _ => aim(stage, frame, d),
        };
        stage.play(pressed(held, d, point));
        if stage.one_in(8) {
            stage.play(held);
        }
    }
    for _ in 0..stage.random.below(5) {
        stage.play(narrow);
    }
}

/// The frame with a bar that is about as long as its shortest handle, or has almost no length.
fn narrowed(stage: &mut Stage, frame: Frame, d: usize) -> Frame {
    let random = &mut stage.random;
    let (start, length, least) = if random.below(2) == 0 {
        let length = pick(random, &[0.0, 10.0, 12.0]);
        let least = near(random, length).max(0.0);
        let start = pick(random, &[0.0, 10.0, -100.0]);
        (start, length, pick(random, &[12.0, least]))
    } else {
        // Below 2^-128 a way of one point has no finite part of the bar.
        let exponent = [-149, -127, -120][random.below(3)];
        (0.0, sized(random, exponent, exponent + 20).abs(), 0.0)
    };
    let frame = frame.with(10, 1).with_number(33, least);
    let frame = frame.with_numbers(11, &[start; 4]);
    frame.with_number(13 + d, start + length)
}

/// The frame with a finger that pulls the content beyond its start.
fn dragged(frame: Frame) -> Frame {
    let frame = frame.with_all([39, 48, 61], 1).with(20, 2);
    frame.with_numbers(57, &[300.0, 300.0])
}
