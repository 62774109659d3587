//! egui's `ScrollArea::begin`, in its order and under its names, on the fields of a frame.

#![expect(clippy::needless_range_loop)] // the loops are the Rust's

use std::array::from_fn;

use crate::branches::{met, met_either, met_if, Branch};
use crate::frame::{DragScroll, Fields, ScrollBarVisibility};
use crate::frame_state::State;
use crate::numbers::{abs, flag_as_number, interpolation_factor, lerp, max, min};
use crate::rectangles::{Pos2, Rect};
use crate::scroll_physics::{scroll_bounds, AxisPhysics, KineticScrollStyle, MouseWheelSource};

/// The response from dragging the background.
#[derive(Clone, Copy, Debug, PartialEq)]
pub struct DragResponse {
    pub dragged: bool,
    pub drag_stopped: bool,
}

/// What `begin` hands to `end`, besides what stands in the frame.
#[derive(Clone, Copy, Debug)]
pub struct Prepared {
    pub state: State,
    pub show_bars_factor: [f32; 2],
    pub current_bar_use: [f32; 2],
    pub inner_rect: Rect,
    /// The clip of the Rust's `content_ui`.
    pub content_clip_rect: Rect,
    pub viewport: Rect,
    pub background_drag_response: Option<DragResponse>,
    pub rubber_banding: [bool; 2],
    pub axis_physics: [AxisPhysics; 2],
    pub repaint: bool,
}

/// The first half of a frame.
pub fn begin(mut state: State, frame: &Fields) -> Prepared {
    state.offset[0] = frame.settings.offset_x.unwrap_or(state.offset[0]);
    state.offset[1] = frame.settings.offset_y.unwrap_or(state.offset[1]);

    met_if(frame.settings.offset_x.is_some(), Branch::ExplicitOffset);
    met_if(frame.settings.offset_y.is_some(), Branch::ExplicitOffset);

    let show_bars_factor = frame.host.bar_factors;
    let current_bar_use = current_bar_use(&state, frame, show_bars_factor);

    let available_outer = frame.host.available_rect;
    let inner_size = inner_size(frame, current_bar_use);
    let inner_rect = Rect::from_min_size(available_outer.min, inner_size);
    let content_clip_rect = content_clip_rect(frame, inner_rect, current_bar_use);

    // The sum is kept, since it makes +0 of -0.
    let scrolled = Pos2 {
        x: 0.0 + state.offset[0],
        y: 0.0 + state.offset[1],
    };
    let viewport = Rect::from_min_size(scrolled, inner_size);

    let axis_physics = axis_physics(&state, frame, inner_size);
    let mut prepared = Prepared {
        background_drag_response: background_drag_response(&state, frame),
        state,
        show_bars_factor,
        current_bar_use,
        inner_rect,
        content_clip_rect,
        viewport,
        rubber_banding: [false; 2],
        axis_physics,
        repaint: false,
    };
    drag_or_step(&mut prepared, frame);
    move_towards_targets(&mut prepared, frame);
    prepared
}

/// The space that the bars take, each across its own direction.
fn current_bar_use(state: &State, frame: &Fields, show_bars_factor: [f32; 2]) -> [f32; 2] {
    let show_bars = match frame.settings.scroll_bar_visibility {
        ScrollBarVisibility::AlwaysHidden => [false; 2],
        ScrollBarVisibility::VisibleWhenNeeded => state.show_scroll,
        ScrollBarVisibility::AlwaysVisible => frame.settings.direction_enabled,
    };
    let scroll_style = frame.style;
    met_either(
        scroll_style.floating,
        Branch::FloatingBarUse,
        Branch::SolidBarUse,
    );
    if scroll_style.floating {
        from_fn(|d| flag_as_number(show_bars[1 - d]) * scroll_style.allocated_width)
    } else {
        from_fn(|d| show_bars_factor[1 - d] * scroll_style.allocated_width)
    }
}

fn inner_size(frame: &Fields, current_bar_use: [f32; 2]) -> [f32; 2] {
    let settings = frame.settings;
    let size = frame.host.available_rect.size();
    let outer_size: [f32; 2] = from_fn(|d| min(size[d], settings.max_size[d]));
    let mut inner_size: [f32; 2] = from_fn(|d| outer_size[d] - current_bar_use[d]);
    for d in 0..2 {
        if settings.direction_enabled[d] {
            inner_size[d] = max(inner_size[d], settings.min_scrolled_size[d]);
        }
    }
    inner_size
}

fn content_clip_rect(frame: &Fields, inner_rect: Rect, current_bar_use: [f32; 2]) -> Rect {
    let clip_rect = frame.host.clip_rect;
    let mut content_clip_rect = clip_rect;
    for d in 0..2 {
        if frame.settings.direction_enabled[d] {
            content_clip_rect.min[d] = inner_rect.min[d];
            content_clip_rect.max[d] = inner_rect.max[d];
        } else {
            content_clip_rect.max[d] = clip_rect.max[d] - current_bar_use[d];
        }
    }
    content_clip_rect.intersect(clip_rect)
}

/// Bounds are from last frame.
fn axis_physics(state: &State, frame: &Fields, inner_size: [f32; 2]) -> [AxisPhysics; 2] {
    let kinetic_style = frame.style.kinetic;
    from_fn(|d| AxisPhysics {
        bounds: scroll_bounds(state.max_offset[d]),
        viewport_extent: inner_size[d],
        style: KineticScrollStyle {
            rubber_band: kinetic_style.rubber_band
                && frame.settings.direction_enabled[d]
                && state.content_is_too_large[d],
            ..kinetic_style
        },
    })
}

/// Document 01: "The background drag counts only if drag is enabled, the ui is enabled, some content is too large".
fn background_drag_response(state: &State, frame: &Fields) -> Option<DragResponse> {
    let drag_is_enabled = match frame.settings.drag {
        DragScroll::Never => false,
        DragScroll::OnTouch => frame.host.has_touch_screen,
        DragScroll::Always => true,
    };
    let some_is_too_large = state.content_is_too_large[0] || state.content_is_too_large[1];
    if drag_is_enabled && frame.host.is_enabled && some_is_too_large {
        // Without a rectangle there is nothing to drag.
        state.interact_rect.map(|_| DragResponse {
            dragged: frame.host.dragged,
            drag_stopped: frame.host.drag_stopped,
        })
    } else {
        None
    }
}

/// Document 01: "dt is the smaller of `stable_dt` and 0.1."
pub fn dt(frame: &Fields) -> f32 {
    min(frame.host.stable_dt, 0.1)
}

fn drag_or_step(prepared: &mut Prepared, frame: &Fields) {
    let Prepared {
        state,
        background_drag_response,
        rubber_banding,
        axis_physics,
        ..
    } = prepared;
    let direction_enabled = frame.settings.direction_enabled;
    if background_drag_response.is_some_and(|response| response.dragged) {
        let pointer_delta = frame.host.pointer_delta;
        for d in 0..2 {
            met_either(
                direction_enabled[d],
                Branch::Drag,
                Branch::DragOnDisabledAxis,
            );
            if direction_enabled[d] {
                let physics = &axis_physics[d];
                state.offset[d] = physics.drag(state.offset[d], -pointer_delta[d]);
                rubber_banding[d] = physics.is_rubber_banding(state.offset[d]);
                met_if(rubber_banding[d], Branch::RubberBandingInBegin);
                state.scroll_stuck_to_end[d] = false;
                state.offset_target[d] = None;
            }
        }
    } else {
        if background_drag_response.is_some_and(|response| response.drag_stopped) {
            met(Branch::DragStopped);
            let velocity = frame.host.pointer_velocity;
            state.vel = from_fn(|d| -(flag_as_number(direction_enabled[d]) * velocity[d]));
        }
        step(prepared, frame);
    }
}

/// The rest of the Rust's arm without a drag; it asks for no enabled direction.
fn step(prepared: &mut Prepared, frame: &Fields) {
    let fingers_on_trackpad = frame.host.scroll_source == Some(MouseWheelSource::Trackpad);
    let hold_overscroll =
        fingers_on_trackpad && frame.host.rect_contains_pointer(prepared.inner_rect);

    let state = &mut prepared.state;
    for d in 0..2 {
        let physics = &prepared.axis_physics[d];
        let (offset, vel) = (&mut state.offset[d], &mut state.vel[d]);
        met_if(hold_overscroll, Branch::HoldOverscroll);
        let moves = physics.step(offset, vel, dt(frame), hold_overscroll);
        met_either(moves, Branch::StepMoves, Branch::StepRests);
        if moves {
            prepared.repaint = true;
        }
        prepared.rubber_banding[d] = physics.is_rubber_banding(state.offset[d]);
        met_if(prepared.rubber_banding[d], Branch::RubberBandingInBegin);
    }
}

fn move_towards_targets(prepared: &mut Prepared, frame: &Fields) {
    let state = &mut prepared.state;
    for d in 0..2 {
        if let Some(scroll_target) = state.offset_target[d] {
            state.vel[d] = 0.0;

            if abs(state.offset[d] - scroll_target.target_offset) < 1.0 {
                // Arrived
                met(Branch::TargetNear);
                state.offset[d] = scroll_target.target_offset;
                state.offset_target[d] = None;
            } else {
                // Move towards target
                let (start, end) = scroll_target.animation_time_span;
                let t = interpolation_factor(start, end, frame.host.time, dt(frame));
                met_either(t < 1.0, Branch::TargetMoves, Branch::TargetArrives);
                if t < 1.0 {
                    state.offset[d] = lerp(state.offset[d], scroll_target.target_offset, t);
                    prepared.repaint = true;
                } else {
                    // Arrived
                    state.offset[d] = scroll_target.target_offset;
                    state.offset_target[d] = None;
                }
            }
        }
    }
}
