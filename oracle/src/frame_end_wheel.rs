//! The part of egui's `Prepared::end` that applies the wheel.

use crate::branches::{met_by, met_either, met_if, Branch, OF_TURNS};
use crate::frame::Fields;
use crate::frame_begin::{dt, Prepared};
use crate::frame_end::Measures;
use crate::frame_state::State;
use crate::scroll_physics::{scroll_bounds, AxisPhysics, WheelScroll};
use crate::wheel_law::{Ground, Turn};

/// Answers the wheel delta that is left for a parent.
pub fn wheel(prepared: &mut Prepared, frame: &Fields, measures: &Measures) -> [f32; 2] {
    let mut smooth_scroll_delta = frame.host.smooth_scroll_delta;
    let is_dragging_background = prepared
        .background_drag_response
        .is_some_and(|response| response.dragged);

    let heard = frame.settings.mouse_wheel
        && frame.host.is_enabled
        && (frame.host.rect_contains_pointer(measures.outer_rect) || is_dragging_background);
    met_either(heard, Branch::WheelHeard, Branch::WheelNotHeard);
    if heard {
        let direction_enabled = frame.settings.direction_enabled;
        let always_scroll_enabled_direction = frame.style.always_scroll_the_only_direction
            && direction_enabled[0] != direction_enabled[1];

        met_if(always_scroll_enabled_direction, Branch::OnlyDirection);
        for d in 0..2 {
            if direction_enabled[d] {
                let scroll_delta = if always_scroll_enabled_direction {
                    smooth_scroll_delta[0] + smooth_scroll_delta[1]
                } else {
                    smooth_scroll_delta[d]
                };
                let scroll_delta = scroll_delta * frame.settings.wheel_scroll_multiplier[d];

                if wheel_axis(prepared, frame, measures.max_offset[d], scroll_delta, d) {
                    // Cleared, so that no parent uses it.
                    if always_scroll_enabled_direction {
                        smooth_scroll_delta = [0.0; 2];
                    } else {
                        smooth_scroll_delta[d] = 0.0;
                    }
                }
            }
        }
    }
    smooth_scroll_delta
}

/// Answers whether the delta was consumed.
fn wheel_axis(
    prepared: &mut Prepared,
    frame: &Fields,
    max_offset: f32,
    scroll_delta: f32,
    d: usize,
) -> bool {
    let state = &mut prepared.state;
    let physics = AxisPhysics {
        bounds: scroll_bounds(max_offset), // this frame's
        ..prepared.axis_physics[d]
    };

    let scroll = WheelScroll {
        delta: -scroll_delta,
        source: frame.host.scroll_source,
        can_chain_to_parent: frame.host.has_scrolling_ancestor,
        dt: dt(frame),
    };
    met_by(|| ground(physics, state, scroll, d).among(OF_TURNS));

    let consumed = physics.wheel(
        &mut state.offset[d],
        &mut state.vel[d],
        scroll,
        &mut state.bounced_this_momentum[d],
    );

    met_either(consumed, Branch::WheelTaken, Branch::WheelLeft);
    if consumed {
        prepared.rubber_banding[d] = physics.is_rubber_banding(state.offset[d]);
        state.scroll_stuck_to_end[d] = false;
        state.offset_target[d] = None;
    }
    consumed
}

/// Who takes the delta.
fn ground(physics: AxisPhysics, state: &State, scroll: WheelScroll, d: usize) -> Ground {
    let turn = Turn {
        axis: physics,
        offset: state.offset[d],
        velocity: state.vel[d],
        scroll,
        bounced: state.bounced_this_momentum[d],
    };
    turn.ground()
}
