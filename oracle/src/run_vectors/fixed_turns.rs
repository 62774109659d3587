//! Turns of the wheel inside frames, on the record that a list keeps: every ground on which one is taken or left.
//!
//! A record does not show the delta that is left for a parent. But a turn that is taken gives the scroll target up, and one that is left
//! keeps it, so that frames whose turn moves nothing ask for a place too.

use super::lists::{with_band, NOW};
use super::Record;
use crate::axis_vectors::scene::{MOMENTUM, TRACKPAD, WHEEL};
use crate::frame_vectors::Frame;

/// The largest dt, so that a bounce is soon over.
const PACE: f64 = 0.1;

/// A list inside another, which rests within a point, with the wheel and the pointer over it.
fn nested() -> Frame {
    with_band()
        .with_all([21, 48, 50, 54], 1)
        .with_numbers(22, &[1.0, 1.0])
        .with_number(38, 1.0)
        .with_number(51, PACE as f32)
        .with_numbers(55, &[50.0, 50.0])
}

/// A turn by that many points further down, against which the smooth delta points.
fn turned(source: u32, delta: f32) -> Frame {
    nested().with(63, source).with_number(65, -delta)
}

fn without_parent(frame: Frame) -> Frame {
    frame.with(50, 0)
}

/// Asks for a place 50 points further up, with egui's own animation.
fn asking(frame: Frame) -> Frame {
    let frame = frame.with(26, 1).with_number(87, 50.0);
    frame.with_numbers(88, &[1000.0, 0.1, 0.3])
}

/// Fingers on a trackpad, from the start to the end, beyond it and back.
fn swipe() -> Vec<Frame> {
    vec![
        // Nothing turns: no delta; that the content is too large is remembered.
        nested(),
        // Onto the end exactly: the offset can move.
        turned(TRACKPAD, 300.0),
        // Further, from the end: nobody takes it, for the parent may.
        turned(TRACKPAD, 20.0),
        // The same where no parent could have it: the band is stretched.
        without_parent(turned(TRACKPAD, 20.0)),
        // Further with a parent again: the band takes it, as the list is outside.
        turned(TRACKPAD, 20.0),
        // The fingers rest, and hold the list outside: no delta.
        turned(TRACKPAD, 0.0),
        // Back again, from outside to inside: the offset can move.
        turned(TRACKPAD, -20.0),
    ]
}

/// The momentum after it, which bounces off the end while it goes on.
fn bounce() -> Vec<Frame> {
    vec![
        // Not as far as the end: the offset can move.
        turned(MOMENTUM, 9.5),
        // Into the end, where it bounces: the offset can move.
        turned(MOMENTUM, 1.0),
        // Outside by the bounce: the band takes the rest of the momentum, which moves nothing.
        asking(turned(MOMENTUM, 0.5)),
        // Back on the end exactly, and the momentum goes on: the corner.
        asking(turned(MOMENTUM, 0.25)),
        // The other way: the offset can move, and after a bounce it does not.
        asking(turned(MOMENTUM, -2.0)),
        // A notch of the wheel, which ends the momentum: nobody takes it.
        asking(turned(WHEEL, 8.0)),
    ]
}

/// Document 01's Momentum at dt 0 among others, on the end: as no time passes, the target that a turn leaves moves nothing.
fn in_one_moment() -> Vec<Frame> {
    let momentum = turned(MOMENTUM, 8.0);
    let frames = [
        // Momentum that has not bounced: nobody takes it.
        momentum,
        // The same where no parent could have it: the band takes it, and it bounces without a velocity.
        without_parent(momentum),
        // Again: the band takes it, and nothing changes.
        without_parent(momentum),
        // The first of these again, after the bounce: the corner.
        momentum,
        // Momentum that stands still: no delta, and the flag stays.
        turned(MOMENTUM, 0.0),
        // Fingers that rest: no delta, and the flag is cleared.
        turned(TRACKPAD, 0.0),
        // A notch of the wheel back: the offset can move.
        turned(WHEEL, -8.0),
    ];
    let stopped = |frame: Frame| asking(frame.with_number(51, 0.0));
    frames.map(stopped).into()
}

/// From a fresh state; the last frames are all at one time.
pub fn turns() -> Vec<Record> {
    let mut frames = [swipe(), bounce()].concat();
    let last = frames.len() - 1;
    frames.extend(in_one_moment());
    let at = |(i, frame): (usize, &Frame)| {
        let time = NOW + PACE * i.min(last) as f64;
        Record::frame(&frame.with_time(time.to_bits()))
    };
    let mut records = vec![Record::Fresh];
    records.extend(frames.iter().enumerate().map(at));
    records
}
