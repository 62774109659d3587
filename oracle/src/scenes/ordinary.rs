//! Back to an ordinary state: presses, targets and velocities given up, explicit offsets.

use super::setting::setting;
use super::stage::Stage;
use crate::frame_vectors::Frame;
use crate::words::away;

/// After some scenes all is given up, after others there is only an explicit offset, after most nothing.
pub fn sometimes(stage: &mut Stage) {
    match stage.random.below(6) {
        0 | 1 => give_up(stage),
        2 => {
            let frame = setting(&mut stage.random);
            let (x, y) = (stage.random.unit() * 900.0, stage.random.unit() * 900.0);
            let frame = placed(frame, x as f32 - 200.0, y as f32 - 200.0);
            stage.play(frame);
        }
        _ => {}
    }
}

/// The frame with explicit offsets.
pub fn placed(frame: Frame, x: f32, y: f32) -> Frame {
    let frame = frame.with(15, 1).with_number(16, x);
    frame.with(17, 1).with_number(18, y)
}

/// Two frames: a press on each bar ends targets, and one without a press ends the presses.
fn give_up(stage: &mut Stage) {
    let frame = setting(&mut stage.random);
    let frame = placed(frame, 0.0, 0.0)
        .with_all([10, 24, 25, 39], 0)
        .with_numbers(66, &[1.0, 1.0])
        .with_number(33, 0.0)
        // No coast is that long, so every velocity ends.
        .with_number(38, away(1_048_576.0, -1));
    let frame = stage.clock.tick(&mut stage.random, frame);
    let start = [frame.word(40), frame.word(41)];
    let pressed = [74, 79].into_iter().fold(frame, |frame, word| {
        let frame = frame.with(word, 1).with(word + 1, start[0]);
        frame.with(word + 2, start[1])
    });
    stage.play_as_it_is(pressed);
    stage.play_as_it_is(frame);
}
