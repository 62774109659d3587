//! The answer of an axis call, from its words.

use super::{place, Call, Kind};
use crate::axis_calls::{drag, step, turned};
use crate::numbers::Rangef;
use crate::scroll_physics::{AxisPhysics, KineticScrollStyle, MouseWheelSource, WheelScroll};
use crate::wheel_law::Turn;
use crate::words::{in_hex, shown};

/// The axis of the first six operands.
fn axis(call: &Call) -> AxisPhysics {
    AxisPhysics {
        bounds: Rangef::new(call.float(place::MIN), call.float(place::MAX)),
        viewport_extent: call.float(place::EXTENT),
        style: KineticScrollStyle {
            decay_time: call.float(place::DECAY_TIME),
            stop_distance: call.float(place::STOP_DISTANCE),
            rubber_band: flag(call.words[place::RUBBER_BAND]),
        },
    }
}

fn flag(word: u32) -> bool {
    assert!(word < 2, "a flag of {word}");
    word == 1
}

/// Document 01: "source (0 none, 1 Unknown, 2 Wheel, 3 Trackpad, 4 Momentum)".
fn source(word: u32) -> Option<MouseWheelSource> {
    match word {
        0 => None,
        1 => Some(MouseWheelSource::Unknown),
        2 => Some(MouseWheelSource::Wheel),
        3 => Some(MouseWheelSource::Trackpad),
        4 => Some(MouseWheelSource::Momentum),
        _ => panic!("a source of {word}"),
    }
}

/// Numbers as a space and eight digits, then flags as a space and one.
fn in_text(numbers: &[f32], flags: &[bool]) -> String {
    let words: Vec<u32> = numbers.iter().map(|x| shown(*x)).collect();
    let digits = flags.iter().map(|flag| format!(" {}", u32::from(*flag)));
    in_hex(&words) + &digits.collect::<String>()
}

/// The refusal, and the rest of the answer in text.
pub(super) fn answer(call: &Call) -> (u32, String) {
    match call.kind {
        Kind::Drag => drag_answer(call),
        Kind::Step => step_answer(call),
        Kind::Wheel => wheel_answer(call),
    }
}

fn drag_answer(call: &Call) -> (u32, String) {
    let (offset, delta) = (call.float(place::OFFSET), call.float(place::DRAG_DELTA));
    let found = drag(&axis(call), offset, delta);
    (found.refusal, in_text(&[found.offset], &[]))
}

fn step_answer(call: &Call) -> (u32, String) {
    let (offset, velocity) = (call.float(place::OFFSET), call.float(place::VELOCITY));
    let (dt, hold) = (call.float(place::STEP_DT), flag(call.words[place::HOLD]));
    let found = step(&axis(call), offset, velocity, dt, hold);
    let numbers = [found.offset, found.velocity];
    (found.refusal, in_text(&numbers, &[found.answer]))
}

/// What a wheel call gives.
pub(super) fn turn(call: &Call) -> Turn {
    Turn {
        axis: axis(call),
        offset: call.float(place::OFFSET),
        velocity: call.float(place::VELOCITY),
        scroll: WheelScroll {
            delta: call.float(place::WHEEL_DELTA),
            source: source(call.words[place::SOURCE]),
            can_chain_to_parent: flag(call.words[place::CAN_CHAIN]),
            dt: call.float(place::WHEEL_DT),
        },
        bounced: flag(call.words[place::BOUNCED]),
    }
}

fn wheel_answer(call: &Call) -> (u32, String) {
    let found = turned(&turn(call));
    let numbers = [found.offset, found.velocity];
    let flags = [found.bounced, found.answer];
    (found.refusal, in_text(&numbers, &flags))
}
