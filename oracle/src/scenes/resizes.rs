//! Areas, clips and contents that change their sizes while something is under way.

use super::setting::{content, directions, factors, place};
use super::stage::Stage;
use super::targets::aimed;
use super::wheels::turned;
use crate::axis_vectors::random_numbers::between;
use crate::frame_vectors::Frame;

pub fn resizes(stage: &mut Stage) {
    let mut frame = stage.setting();
    stage.open(frame);
    for _ in 0..4 + stage.random.below(20) {
        frame = resized(stage, frame);
        let played = match stage.random.below(12) {
            0 => aimed(stage, frame, 1),
            1 => turned(stage, frame, [-25.0, -35.0]),
            2 => frame.with(62, 1).with_numbers(59, &[500.0, -700.0]),
            3 => {
                let random = &mut stage.random;
                let offset = between(random, -100.0, 1000.0);
                frame.with(17, 1).with_number(18, offset)
            }
            _ => frame,
        };
        stage.play(played);
    }
}

/// One thing about the area changes.
fn resized(stage: &mut Stage, frame: Frame) -> Frame {
    let random = &mut stage.random;
    match random.below(12) {
        0 => {
            let placed = place(random, frame);
            content(random, placed)
        }
        1 | 2 => content(random, frame),
        3 => directions(random, frame),
        4 => frame.with(9, random.below(3) as u32),
        5 => frame.with(27, random.below(2) as u32),
        6 => factors(random, frame),
        7 => {
            // Wider by a part of a point, which ceil notices.
            let right = f32::from_bits(frame.word(42));
            let wider = right + between(random, 0.0, 3.0);
            frame.with_number(42, wider)
        }
        8 => {
            let size = f32::from_bits(frame.word(83));
            frame.with_number(83, size + between(random, 0.0, 2.0))
        }
        9 => frame.with(39, random.below(2) as u32),
        _ => frame,
    }
}
