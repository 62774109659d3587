//! A list that a run is tried on: its frame with nothing happening, and states of it.

use super::Call;
use crate::clock::Remembering;
use crate::frame_call::frame_call;
use crate::frame_state::{ScrollingToTarget, State};
use crate::frame_vectors::{example, Frame};

/// A screen's increment.
pub const SCREEN: f64 = 1.0 / 60.0;

/// When the list is looked at first.
pub const NOW: f64 = 10.0;

/// The last offset of the list.
pub const END: f32 = 300.0;

/// Document 01's example, which does not stick here, at a screen's pace.
pub fn list() -> Frame {
    example()
        .with(25, 0)
        .with_numbers(37, &[0.325, 0.1])
        .with_number(51, SCREEN as f32)
        .with_time(NOW.to_bits())
}

/// The same with a rubber band.
pub fn with_band() -> Frame {
    list().with(39, 1)
}

/// The same that no velocity is too slow for: it never rests.
pub fn restless() -> Frame {
    list().with_number(38, 0.0)
}

/// The same with a vertical bar of that length, which is pressed there, and whose handle is that long at the least.
pub fn pressed(length: f32, least: f32, y: f32) -> Frame {
    list()
        .with_all([10, 79], 1)
        .with_numbers(11, &[0.0, 0.0, 200.0, length])
        .with_number(29, 10.0)
        .with_numbers(32, &[10.0, least])
        .with_number(67, 1.0)
        .with_numbers(80, &[175.0, y])
}

/// The state of that list at that offset with that velocity.
pub fn moving(offset: f32, velocity: f32) -> State {
    let mut state = frame_call(State::default(), &list().bytes()).state;
    (state.offset[1], state.vel[1]) = (offset, velocity);
    state.scroll_stuck_to_end = [false; 2];
    state
}

/// The state of that list at that offset, on its way to a goal in a span of time.
pub fn on_its_way(offset: f32, goal: f32, span: (f64, f64)) -> State {
    let mut state = moving(offset, 0.0);
    state.offset_target[1] = Some(ScrollingToTarget {
        animation_time_span: span,
        target_offset: goal,
    });
    state
}

/// A run at a screen's pace.
pub fn paced(state: impl Into<Remembering>, frame: Frame, limit: u32) -> Call {
    Call {
        state: state.into(),
        frame: frame.bytes(),
        increment: SCREEN,
        limit,
    }
}
