//! A list that grows while its area sticks to the end, is scrolled away from it and back.

use super::stage::Stage;
use super::targets::aimed;
use super::wheels::turned;
use crate::axis_vectors::random_numbers::{between, pick};
use crate::frame_vectors::Frame;

pub fn growing_list(stage: &mut Stage) {
    let mut frame = stage.setting();
    let d = stage.random.below(2);
    frame = frame.with(1 + d, 1).with(24 + d, 1).with_all([21, 48], 1);
    for _ in 0..8 + stage.random.below(24) {
        frame = grown(stage, frame, d);
        let played = match stage.random.below(16) {
            0 => turned(stage, frame, [40.0, 40.0]),
            // Far enough to meet the end again.
            1 => turned(stage, frame, [-900.0, -900.0]),
            2 => aimed(stage, frame, d),
            3 => {
                let way = between(&mut stage.random, -300.0, 300.0);
                frame.with_number(86 + d, way)
            }
            4 => {
                let word = 15 + 2 * d;
                let offset = between(&mut stage.random, -50.0, 900.0);
                frame.with(word, 1).with_number(word + 1, offset)
            }
            5 => frame.with(24 + d, 0),
            _ => frame,
        };
        stage.play(played);
    }
}

/// Mostly some rows more, in a few cases fewer, or no longer than the area.
fn grown(stage: &mut Stage, frame: Frame, d: usize) -> Frame {
    let size = f32::from_bits(frame.word(82 + d));
    let more = match stage.random.below(8) {
        0..=3 => pick(&mut stage.random, &[18.0, 21.0, 36.0, 17.3]),
        4 => -pick(&mut stage.random, &[18.0, 90.0, 0.5]),
        5 if stage.one_in(4) => 30.0 - size,
        _ => 0.0,
    };
    frame.with_number(82 + d, (size + more).max(0.0))
}
