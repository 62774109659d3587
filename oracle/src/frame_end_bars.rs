//! The part of egui's `Prepared::end` about the bars: sticking, handles and presses.

#![expect(clippy::needless_range_loop)] // the loop is the Rust's

use crate::branches::{met, met_either, met_if, Branch};
use crate::frame::Fields;
use crate::frame_begin::Prepared;
use crate::frame_end::Measures;
use crate::frame_end_targets::Taken;
use crate::numbers::{clamp, lerp, max, remap, remap_clamp, Rangef};
use crate::rectangles::{pos2, Pos2, Rect};
use crate::scroll_physics::scroll_bounds;

/// Where the Rust's clamp of a new press panics.
#[derive(Clone, Copy, Debug, PartialEq)]
pub struct ClampPanics;

/// Answers the handle rectangles of the second calculation.
pub fn bars(
    prepared: &mut Prepared,
    frame: &Fields,
    measures: &Measures,
    taken: &Taken,
) -> Result<[Option<Rect>; 2], ClampPanics> {
    let mut handle_rects = [None; 2];
    for d in 0..2 {
        let state = &mut prepared.state;
        if frame.settings.stick_to_end[d]
            && state.scroll_stuck_to_end[d]
            && !taken.had_explicit_scroll_adjustment[d]
        {
            met(Branch::Sticks);
            state.offset[d] = measures.content_size[d] - measures.inner_rect.size()[d];
        }

        let show_factor = prepared.show_bars_factor[d];
        if show_factor == 0.0 {
            met(Branch::HiddenBar);
            state.scroll_bar_interaction[d] = false;
            continue;
        }

        let bar = Bar::of(frame, measures, show_factor, d);
        let handle_rect = bar.calculate_handle_rect(&state.offset);

        let response = frame.host.bars[d];
        state.scroll_bar_interaction[d] = response.hovered || response.dragged;

        bar.press(prepared, handle_rect, response.interact_pointer_pos)?;
        bar.clamp_offset(prepared);

        // The Rust does this only for a visible bar; document 01 asks for it always.
        handle_rects[d] = Some(bar.calculate_handle_rect(&prepared.state.offset));
    }
    Ok(handle_rects)
}

/// What the loop over the bars knows of the one at hand.
struct Bar {
    d: usize,
    content_size: [f32; 2],
    inner_rect: Rect,
    max_offset: [f32; 2],
    handle_min_length: f32,
    scroll_bar_rect: Rect,
    cross: Rangef,
}

impl Bar {
    fn of(frame: &Fields, measures: &Measures, show_factor: f32, d: usize) -> Bar {
        met_if(
            frame.settings.scroll_bar_rect.is_some(),
            Branch::GivenBarRect,
        );
        Bar {
            d,
            content_size: measures.content_size,
            inner_rect: measures.inner_rect,
            max_offset: measures.max_offset,
            handle_min_length: frame.style.handle_min_length,
            scroll_bar_rect: frame
                .settings
                .scroll_bar_rect
                .unwrap_or(measures.inner_rect),
            cross: cross(frame, measures, show_factor, d),
        }
    }

    #[expect(clippy::wrong_self_convention)] // the name is the Rust's
    fn from_content(&self, content: f32) -> f32 {
        let (d, bar) = (self.d, self.scroll_bar_rect);
        remap_clamp(content, 0.0, self.content_size[d], bar.min[d], bar.max[d])
    }

    fn calculate_handle_rect(&self, offset: &[f32; 2]) -> Rect {
        let Bar {
            d,
            cross,
            inner_rect,
            ..
        } = *self;
        let handle_size = if d == 0 {
            self.from_content(offset[0] + inner_rect.width()) - self.from_content(offset[0])
        } else {
            self.from_content(offset[1] + inner_rect.height()) - self.from_content(offset[1])
        };
        // The Rust's max takes either arm.
        let handle_size = max(handle_size, self.handle_min_length);

        let handle_start_point = remap_clamp(
            offset[d],
            0.0,
            self.max_offset[d],
            self.scroll_bar_rect.min[d],
            self.scroll_bar_rect.max[d] - handle_size,
        );

        if d == 0 {
            Rect::from_min_max(
                pos2(handle_start_point, cross.min),
                pos2(handle_start_point + handle_size, cross.max),
            )
        } else {
            Rect::from_min_max(
                pos2(cross.min, handle_start_point),
                pos2(cross.max, handle_start_point + handle_size),
            )
        }
    }

    /// A press moves the offset; without one the place on the handle is forgotten.
    fn press(
        &self,
        prepared: &mut Prepared,
        handle_rect: Rect,
        interact_pointer_pos: Option<Pos2>,
    ) -> Result<(), ClampPanics> {
        let (d, scroll_bar_rect) = (self.d, self.scroll_bar_rect);
        let state = &mut prepared.state;
        if let Some(pointer_pos) = interact_pointer_pos {
            let scroll_start_offset_from_top_left = match state.scroll_start_offset_from_top_left[d]
            {
                Some(stored) => {
                    met(Branch::StoredPress);
                    stored
                }
                None => self.place_of_new_press(handle_rect, pointer_pos)?,
            };
            state.scroll_start_offset_from_top_left[d] = Some(scroll_start_offset_from_top_left);

            let new_handle_top = pointer_pos[d] - scroll_start_offset_from_top_left;
            let (travel_start, travel_end) = (
                scroll_bar_rect.min[d],
                scroll_bar_rect.max[d] - handle_rect.size()[d],
            );
            met_if(travel_start == travel_end, Branch::NoTravel);
            state.offset[d] = if travel_start == travel_end {
                0.0
            } else {
                let max_offset = self.max_offset[d];
                remap(new_handle_top, travel_start, travel_end, 0.0, max_offset)
            };

            state.scroll_stuck_to_end[d] = false;
            state.offset_target[d] = None;
        } else {
            state.scroll_start_offset_from_top_left[d] = None;
        }
        Ok(())
    }

    /// The Rust's closure for `get_or_insert_with`.
    fn place_of_new_press(&self, handle_rect: Rect, pointer_pos: Pos2) -> Result<f32, ClampPanics> {
        let (d, scroll_bar_rect) = (self.d, self.scroll_bar_rect);
        if handle_rect.contains(pointer_pos) {
            met(Branch::PressOnHandle);
            Ok(pointer_pos[d] - handle_rect.min[d])
        } else {
            let handle_top_pos_at_bottom = scroll_bar_rect.max[d] - handle_rect.size()[d];
            let new_handle_top_pos = clamp_or_panic(
                pointer_pos[d] - handle_rect.size()[d] * 0.5,
                scroll_bar_rect.min[d],
                handle_top_pos_at_bottom,
            )?;
            met(Branch::PressBesideHandle);
            Ok(pointer_pos[d] - new_handle_top_pos)
        }
    }

    fn clamp_offset(&self, prepared: &mut Prepared) {
        let (d, state) = (self.d, &mut prepared.state);
        if !prepared.rubber_banding[d] {
            let unbounded_offset = state.offset[d];
            state.offset[d] = scroll_bounds(self.max_offset[d]).clamp(state.offset[d]);

            if state.offset[d] != unbounded_offset {
                met(Branch::ClampZeroesVelocity);
                state.vel[d] = 0.0;
            }
        }
    }
}

/// The range of the bar across its direction.
fn cross(frame: &Fields, measures: &Measures, show_factor: f32, d: usize) -> Rangef {
    let scroll_style = frame.style;
    let clip_rect = frame.host.clip_rect;
    let inner_margin = show_factor * scroll_style.bar_inner_margin;
    let outer_margin = show_factor * scroll_style.bar_outer_margin;

    let mut max_cross = measures.outer_rect.max[1 - d] - outer_margin;
    if clip_rect.max[1 - d] - outer_margin < max_cross {
        met(Branch::CrossByClip);
        max_cross = clip_rect.max[1 - d] - outer_margin;
    }

    met_either(scroll_style.floating, Branch::FloatingBar, Branch::SolidBar);
    let full_width = scroll_style.bar_width;
    if scroll_style.floating {
        let is_hovering_bar_area_t = frame.host.hover_factors[d];
        let width = show_factor
            * lerp(
                scroll_style.floating_width,
                full_width,
                is_hovering_bar_area_t,
            );
        let min_cross = max_cross - width;
        Rangef::new(min_cross, max_cross)
    } else {
        let min_cross = measures.inner_rect.max[1 - d] + inner_margin;
        Rangef::new(min_cross, max_cross)
    }
}

/// The Rust's clamp panics unless the start is at or below the end, so not-a-number counts as above.
fn clamp_or_panic(x: f32, start: f32, end: f32) -> Result<f32, ClampPanics> {
    if start <= end {
        Ok(clamp(x, start, end))
    } else {
        met(Branch::PressBlocked);
        Err(ClampPanics)
    }
}
