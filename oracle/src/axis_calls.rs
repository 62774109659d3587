//! The axis calls of a host: document 01's refusals around the steps of egui.

use crate::branches::{met_by, OF_WHEEL_CALLS};
use crate::judge;
use crate::scroll_physics::{AxisPhysics, WheelScroll};
use crate::wheel_law::Turn;

/// Document 01: "exceeds 1,048,576 in magnitude".
pub const LIMIT: f32 = 1_048_576.0;

/// Document 01: "`decay_time` is outside 1/1,024 to 1,024".
pub const SHORTEST_DECAY: f32 = 1.0 / 1_024.0;
pub const LONGEST_DECAY: f32 = 1_024.0;

/// What a drag hands back.
#[derive(Clone, Copy, Debug, PartialEq)]
pub struct Dragged {
    pub refusal: u32,
    pub offset: f32,
}

/// What a step hands back.
#[derive(Clone, Copy, Debug, PartialEq)]
pub struct Stepped {
    pub refusal: u32,
    pub offset: f32,
    pub velocity: f32,
    pub answer: bool,
}

/// What a wheel call hands back.
#[derive(Clone, Copy, Debug, PartialEq)]
pub struct Wheeled {
    pub refusal: u32,
    pub offset: f32,
    pub velocity: f32,
    pub bounced: bool,
    pub answer: bool,
}

/// Document 01: "not finite or exceeds 1,048,576 in magnitude".
fn exceeds(x: &f32) -> bool {
    !(-LIMIT <= *x && *x <= LIMIT)
}

/// Checks 3 to 6, each on all that it covers before the next; 0 where none applies.
fn refusal(axis: &AxisPhysics, delta: Option<f32>, dt: Option<f32>, held: &[f32]) -> u32 {
    let (bounds, style) = (axis.bounds, axis.style);
    let decay_and_stop = [style.decay_time, style.stop_distance];
    let own = [bounds.min, bounds.max, axis.viewport_extent];
    let mut handed = own.iter().chain(&decay_and_stop).chain(&delta).chain(&dt);
    let decay_is_known = SHORTEST_DECAY <= style.decay_time && style.decay_time <= LONGEST_DECAY;
    if handed.any(exceeds) {
        3
    } else if bounds.max < bounds.min || dt.is_some_and(|dt| dt < 0.0) {
        4
    } else if !decay_is_known || style.stop_distance < 0.0 {
        5
    } else if !held.iter().all(|x| x.is_finite()) {
        6
    } else {
        0
    }
}

/// A finger moved the content.
pub fn drag(axis: &AxisPhysics, offset: f32, delta: f32) -> Dragged {
    let refused = |refusal| Dragged { refusal, offset };
    let early = refusal(axis, Some(delta), None, &[offset]);
    if early != 0 {
        return refused(early);
    }
    let moved = judge::drag(axis, offset, delta);
    if !moved.is_finite() {
        return refused(8);
    }
    Dragged {
        refusal: 0,
        offset: moved,
    }
}

/// Nothing touches the content while dt passes.
pub fn step(axis: &AxisPhysics, offset: f32, velocity: f32, dt: f32, hold: bool) -> Stepped {
    let refused = |refusal| Stepped {
        refusal,
        offset,
        velocity,
        answer: false,
    };
    let early = refusal(axis, None, Some(dt), &[offset, velocity]);
    if early != 0 {
        return refused(early);
    }
    let moved = judge::step(axis, offset, velocity, dt, hold);
    if !(moved.offset.is_finite() && moved.velocity.is_finite()) {
        return refused(8);
    }
    Stepped {
        refusal: 0,
        offset: moved.offset,
        velocity: moved.velocity,
        answer: moved.answer,
    }
}

/// A scroll delta arrived.
pub fn wheel(
    axis: &AxisPhysics,
    offset: f32,
    velocity: f32,
    scroll: WheelScroll,
    bounced: bool,
) -> Wheeled {
    turned(&Turn {
        axis: *axis,
        offset,
        velocity,
        scroll,
        bounced,
    })
}

/// The same, of a turn as it is given.
pub fn turned(turn: &Turn) -> Wheeled {
    let refused = |refusal| Wheeled {
        refusal,
        offset: turn.offset,
        velocity: turn.velocity,
        bounced: turn.bounced,
        answer: false,
    };
    let (delta, dt) = (Some(turn.scroll.delta), Some(turn.scroll.dt));
    let early = refusal(&turn.axis, delta, dt, &[turn.offset, turn.velocity]);
    if early != 0 {
        return refused(early);
    }
    let taken = judge::wheel(turn);
    if !(taken.offset.is_finite() && taken.velocity.is_finite()) {
        return refused(8);
    }
    met_by(|| turn.ground().among(OF_WHEEL_CALLS));
    Wheeled {
        refusal: 0,
        offset: taken.offset,
        velocity: taken.velocity,
        bounced: taken.bounced,
        answer: taken.answer,
    }
}
