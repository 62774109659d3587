//! The port's answers.

use std::array::from_fn;

use crate::frame::Fields;
use crate::frame_begin::begin;
use crate::frame_call::Output;
use crate::frame_end::end;
use crate::frame_state::State;
use crate::scroll_physics::{scroll_bounds, AxisPhysics};
use crate::wheel_law::Turn;

/// What a step leaves: the offset, the velocity, and whether it moves on.
#[derive(Clone, Copy, Debug, PartialEq)]
pub struct Moved {
    pub offset: f32,
    pub velocity: f32,
    pub answer: bool,
}

/// What a turn of the wheel leaves: the offset, the velocity, the bounce, and whether it is taken.
#[derive(Clone, Copy, Debug, PartialEq)]
pub struct Taken {
    pub offset: f32,
    pub velocity: f32,
    pub bounced: bool,
    pub answer: bool,
}

/// The state that a list begins with.
pub fn fresh() -> State {
    State::default()
}

/// The shown offset.
pub fn shown(state: &State) -> [f32; 2] {
    from_fn(|d| scroll_bounds(state.max_offset[d]).clamp(state.offset[d]))
}

/// A frame that checks 1 to 5 let through on a state that check 6 does, with 7 and 8.
pub fn frame(state: State, bytes: &[u8]) -> Output {
    let frame = Fields::of(bytes);
    let prepared = begin(state, &frame);
    let (inner_rect, viewport) = (prepared.inner_rect, prepared.viewport);
    let Ok(ended) = end(prepared, &frame) else {
        return Output::refused(7, state);
    };
    let output = Output {
        refusal: 0,
        state: ended.state,
        content_size: ended.content_size,
        inner_rect,
        viewport,
        handle_rects: ended.handle_rects,
        wheel_delta_left: ended.wheel_delta_left,
        scroll_delta_left: ended.scroll_delta_left,
        repaint: ended.repaint,
    };
    output.unless_8(state)
}

/// The offset after a drag.
pub fn drag(axis: &AxisPhysics, offset: f32, delta: f32) -> f32 {
    axis.drag(offset, delta)
}

pub fn step(axis: &AxisPhysics, offset: f32, velocity: f32, dt: f32, hold: bool) -> Moved {
    let (mut moved, mut speed) = (offset, velocity);
    let answer = axis.step(&mut moved, &mut speed, dt, hold);
    Moved {
        offset: moved,
        velocity: speed,
        answer,
    }
}

pub fn wheel(turn: &Turn) -> Taken {
    let (mut moved, mut speed, mut flag) = (turn.offset, turn.velocity, turn.bounced);
    let answer = turn
        .axis
        .wheel(&mut moved, &mut speed, turn.scroll, &mut flag);
    Taken {
        offset: moved,
        velocity: speed,
        bounced: flag,
        answer,
    }
}
