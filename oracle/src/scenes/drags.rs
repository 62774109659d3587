//! Touch drags and flings, with and without rubber band.

use super::stage::Stage;
use crate::axis_vectors::random_numbers::{between, pick};
use crate::frame_vectors::Frame;

pub fn touch(stage: &mut Stage) {
    let mut frame = stage.setting().with_all([48, 49], 1);
    frame = frame.with(20, stage.random.one_of(&[1, 1, 2, 0]));
    // The first frame finds out what is too large, and leaves a rectangle to drag.
    stage.open(frame);
    for _ in 0..1 + stage.random.below(4) {
        drag(stage, frame);
        release(stage, frame);
        coast(stage, frame);
    }
}

/// Some frames with the finger moving one way, in some cases with the wheel too.
fn drag(stage: &mut Stage, frame: Frame) {
    let speed = pick(&mut stage.random, &[3.0, 30.0, 120.0]);
    let way = between(&mut stage.random, -speed, speed);
    for _ in 0..1 + stage.random.below(8) {
        let across = between(&mut stage.random, -speed, speed);
        let down = way + between(&mut stage.random, -2.0, 2.0);
        let mut held = frame.with(61, 1).with_numbers(57, &[across, down]);
        if stage.one_in(12) {
            let source = stage.random.below(5) as u32;
            held = held.with(63, source).with_numbers(64, &[4.0, -6.0]);
        }
        // Both at once: dragged wins.
        held = held.with(62, u32::from(stage.one_in(12)));
        held = held.with_numbers(59, &[900.0, -900.0]);
        stage.play(held);
    }
}

fn release(stage: &mut Stage, frame: Frame) {
    let speed = pick(&mut stage.random, &[0.0, 40.0, 800.0, 6000.0, 1e6]);
    let across = between(&mut stage.random, -speed, speed);
    let down = between(&mut stage.random, -speed, speed);
    stage.play(frame.with(62, 1).with_numbers(59, &[across, down]));
}

/// The content alone; in some cases fingers rest on a trackpad, which holds a stretched band.
fn coast(stage: &mut Stage, frame: Frame) {
    for _ in 0..stage.random.below(12) {
        let mut free = frame;
        if stage.one_in(8) {
            let start = [frame.word(40), frame.word(41)];
            free = free.with(63, 3).with(54, 1);
            free = free.with(55, start[0]).with(56, start[1]);
        }
        stage.play(free);
    }
}
