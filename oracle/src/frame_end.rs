//! egui's `Prepared::end`, in its order and under its names, on the fields of a frame.

#![expect(clippy::needless_range_loop)] // the loops are the Rust's

use std::array::from_fn;

use crate::branches::{met, met_either, met_if, Branch};
use crate::frame::{Fields, ScrollBarVisibility};
use crate::frame_begin::Prepared;
use crate::frame_end_bars::{bars, ClampPanics};
use crate::frame_end_targets::{take_targets_and_deltas, Taken};
use crate::frame_end_wheel::wheel;
use crate::frame_state::State;
use crate::numbers::{ceil, max, min};
use crate::rectangles::Rect;
use crate::scroll_physics::scroll_bounds;

/// What `end` hands back, and what it leaves in the host.
#[derive(Clone, Copy, Debug)]
pub struct Ended {
    pub content_size: [f32; 2],
    pub state: State,
    /// Of the second calculation; none where the bar factor in force is 0.
    pub handle_rects: [Option<Rect>; 2],
    pub wheel_delta_left: [f32; 2],
    pub scroll_delta_left: [f32; 2],
    pub repaint: bool,
}

/// The locals of `end` that are known after its targets and deltas.
#[derive(Clone, Copy, Debug)]
pub struct Measures {
    pub content_size: [f32; 2],
    /// Not the one of `begin`: it is shrunk to the content, or grown.
    pub inner_rect: Rect,
    pub outer_rect: Rect,
    pub content_is_too_large: [bool; 2],
    pub max_offset: [f32; 2],
}

/// The second half of a frame.
pub fn end(mut prepared: Prepared, frame: &Fields) -> Result<Ended, ClampPanics> {
    let taken = take_targets_and_deltas(&mut prepared, frame);
    let measures = Measures::of(&prepared, frame);
    let wheel_delta_left = wheel(&mut prepared, frame, &measures);

    let show_scroll_this_frame = open_bars(&mut prepared, frame, &measures);
    let handle_rects = bars(&mut prepared, frame, &measures, &taken)?;

    if show_scroll_this_frame != prepared.state.show_scroll {
        prepared.repaint = true;
    }
    clamp_and_stick(&mut prepared, frame, &measures, &taken);

    let mut state = prepared.state;
    state.show_scroll = show_scroll_this_frame;
    state.content_is_too_large = measures.content_is_too_large;
    state.interact_rect = Some(measures.inner_rect);
    Ok(Ended {
        content_size: measures.content_size,
        state,
        handle_rects,
        wheel_delta_left,
        scroll_delta_left: taken.scroll_delta_left,
        repaint: prepared.repaint,
    })
}

impl Measures {
    fn of(prepared: &Prepared, frame: &Fields) -> Measures {
        let direction_enabled = frame.settings.direction_enabled;
        let content_size = frame.content.min_size;
        let inner_rect = inner_rect(prepared, frame);
        let inner_size = inner_rect.size();

        let outer_size: [f32; 2] = from_fn(|d| inner_size[d] + prepared.current_bar_use[d]);
        let outer_rect = Rect::from_min_size(inner_rect.min, outer_size);
        let limit_rect = if frame.style.floating {
            outer_rect
        } else {
            inner_rect
        };

        let content_is_too_large = [
            direction_enabled[0] && (ceil(limit_rect.width()) < content_size[0]),
            direction_enabled[1] && (ceil(limit_rect.height()) < content_size[1]),
        ];
        for large in content_is_too_large {
            met_if(large, Branch::TooLarge);
        }
        Measures {
            content_size,
            inner_rect,
            outer_rect,
            content_is_too_large,
            max_offset: from_fn(|d| content_size[d] - inner_size[d]),
        }
    }
}

fn inner_rect(prepared: &Prepared, frame: &Fields) -> Rect {
    let settings = frame.settings;
    let content_size = frame.content.min_size;
    // The rectangle's size, which is not always the one that it was made from.
    let mut inner_size = prepared.inner_rect.size();
    for d in 0..2 {
        met(branch_of(
            settings.direction_enabled[d],
            settings.auto_shrink[d],
        ));
        inner_size[d] = match (settings.direction_enabled[d], settings.auto_shrink[d]) {
            (true, true) => min(inner_size[d], content_size[d]),
            (true, false) => inner_size[d],
            (false, true) => content_size[d],
            (false, false) => max(inner_size[d], content_size[d]),
        };
    }
    Rect::from_min_size(prepared.inner_rect.min, inner_size)
}

fn branch_of(direction_enabled: bool, auto_shrink: bool) -> Branch {
    match (direction_enabled, auto_shrink) {
        (true, true) => Branch::EnabledShrinks,
        (true, false) => Branch::EnabledStays,
        (false, true) => Branch::DisabledShrinks,
        (false, false) => Branch::DisabledGrows,
    }
}

/// Which bars are to show in this frame; one that was gone has the factor on opening.
fn open_bars(prepared: &mut Prepared, frame: &Fields, measures: &Measures) -> [bool; 2] {
    let show_scroll_this_frame = match frame.settings.scroll_bar_visibility {
        ScrollBarVisibility::AlwaysHidden => [false; 2],
        ScrollBarVisibility::VisibleWhenNeeded => measures.content_is_too_large,
        ScrollBarVisibility::AlwaysVisible => frame.settings.direction_enabled,
    };
    for d in 0..2 {
        if show_scroll_this_frame[d] && prepared.show_bars_factor[d] <= 0.0 {
            met(Branch::Opens);
            prepared.show_bars_factor[d] = frame.host.bar_factors_on_opening[d];
        }
    }
    show_scroll_this_frame
}

fn clamp_and_stick(prepared: &mut Prepared, frame: &Fields, measures: &Measures, taken: &Taken) {
    let state = &mut prepared.state;
    let stick_to_end = frame.settings.stick_to_end;
    let inner_size = measures.inner_rect.size();
    let available_offset: [f32; 2] = from_fn(|d| measures.content_size[d] - inner_size[d]);
    for d in 0..2 {
        met_either(
            prepared.rubber_banding[d],
            Branch::BandSkipsClamp,
            Branch::LastClamp,
        );
        if !prepared.rubber_banding[d] {
            state.offset[d] = scroll_bounds(available_offset[d]).clamp(state.offset[d]);
        }
    }
    state.max_offset = available_offset;

    let suppress_stuck_recompute: [bool; 2] =
        from_fn(|d| taken.had_explicit_scroll_adjustment[d] && state.offset_target[d].is_some());

    for d in 0..2 {
        let at_end = state.offset[d] == available_offset[d];
        let short = stick_to_end[d] && available_offset[d] < 0.0;
        met_if(suppress_stuck_recompute[d], Branch::StuckSuppressed);
        met_if(!suppress_stuck_recompute[d] && at_end, Branch::StuckAtEnd);
        met_if(
            !suppress_stuck_recompute[d] && !at_end && short,
            Branch::StuckShort,
        );
    }
    state.scroll_stuck_to_end = from_fn(|d| {
        !suppress_stuck_recompute[d]
            && ((state.offset[d] == available_offset[d])
                || (stick_to_end[d] && available_offset[d] < 0.0))
    });
}
