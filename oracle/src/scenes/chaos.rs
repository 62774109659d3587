//! Frames whose words are all drawn anew, within what checks 2 to 5 let pass in most cases.

use super::hostile::{allowed, in_order};
use super::stage::Stage;
use crate::axis_vectors::random_numbers::{between, signed, sized};
use crate::frame_vectors::places::{numbers, DECAY_TIME, FLAGS, KINDS, SPEEDS, STOP_DISTANCE};
use crate::frame_vectors::Frame;
use crate::random::Random;

pub fn anything(stage: &mut Stage) {
    stage.setting();
    for _ in 0..4 + stage.random.below(12) {
        let frame = drawn(&mut stage.random);
        stage.play(frame);
    }
}

/// Frames most of whose numbers are a zero of either sign, where ties decide.
pub fn zeros(stage: &mut Stage) {
    let frame = stage.setting();
    for _ in 0..4 + stage.random.below(12) {
        let frame = stage.clock.tick(&mut stage.random, frame);
        let played = zeroed(&mut stage.random, frame);
        stage.play_as_it_is(in_order(played));
    }
}

fn zeroed(random: &mut Random, frame: Frame) -> Frame {
    let parts = 2 + random.below(5);
    let frame = numbers().into_iter().fold(frame, |frame, word| {
        let stays = SPEEDS.contains(&word) || word == DECAY_TIME;
        if stays || random.below(parts) == 0 {
            frame
        } else {
            frame.with_number(word, signed(random, 0.0))
        }
    });
    FLAGS.into_iter().fold(frame, |frame, word| {
        let other = random.below(2) as u32;
        let present = frame.word(word);
        frame.with(word, random.one_of(&[present, other]))
    })
}

fn drawn(random: &mut Random) -> Frame {
    let frame = FLAGS.into_iter().fold(Frame::ZEROS, |frame, word| {
        frame.with(word, random.below(2) as u32)
    });
    let frame = KINDS.into_iter().fold(frame, |frame, (word, last)| {
        frame.with(word, random.below(last as usize + 1) as u32)
    });
    let frame = numbers().into_iter().fold(frame, |frame, word| {
        let x = number(random, word);
        frame.with_number(word, x)
    });
    in_order(frame)
}

/// A number that may stand at that word.
fn number(random: &mut Random, word: usize) -> f32 {
    if SPEEDS.contains(&word) || word == DECAY_TIME {
        return sized(random, -9, 9).abs();
    }
    let x = match random.below(8) {
        0 => signed(random, 0.0),
        1 => sized(random, -20, 20),
        2 => sized(random, -140, -20),
        3 => between(random, -20.0, 20.0),
        _ => between(random, -400.0, 400.0),
    };
    if word == STOP_DISTANCE {
        x.abs()
    } else {
        allowed(word, x)
    }
}
