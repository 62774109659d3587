//! The first part of egui's `Prepared::end`: scroll targets and scroll deltas.

use crate::branches::{met, Branch};
use crate::frame::{Fields, ScrollAnimation, ScrollTarget};
use crate::frame_begin::Prepared;
use crate::frame_state::{ScrollingToTarget, State};
use crate::numbers::{abs, lerp, min, remap, widen};

/// What this part leaves behind, besides the state.
pub struct Taken {
    pub had_explicit_scroll_adjustment: [bool; 2],
    pub scroll_delta_left: [f32; 2],
}

pub fn take_targets_and_deltas(prepared: &mut Prepared, frame: &Fields) -> Taken {
    let mut had_explicit_scroll_adjustment = [false; 2];
    let mut scroll_delta_left = frame.content.scroll_delta;

    for d in 0..2 {
        // A target on a direction that is not enabled is dropped.
        let scroll_target = frame.content.scroll_target[d];

        if frame.settings.direction_enabled[d] {
            let scroll_delta = std::mem::take(&mut scroll_delta_left[d]);
            let mut delta = -scroll_delta;
            let mut animation = frame.content.scroll_animation;

            if let Some(target) = scroll_target {
                let delta_update = delta_to_target(prepared, frame, target, d);
                animation = target.animation;
                delta += delta_update;
            }

            if delta != 0.0 {
                scroll_by(&mut prepared.state, frame, delta, animation, d);
                prepared.repaint = true;
            }

            if delta != 0.0 {
                had_explicit_scroll_adjustment[d] = true;
            }
        }
    }
    Taken {
        had_explicit_scroll_adjustment,
        scroll_delta_left,
    }
}

/// The Rust's `delta_update`.
fn delta_to_target(prepared: &Prepared, frame: &Fields, target: ScrollTarget, d: usize) -> f32 {
    let ScrollTarget { range, align, .. } = target;
    let min_of_content = frame.content.min[d];
    let clip_rect = prepared.content_clip_rect;
    let visible_range = (min_of_content, min_of_content + clip_rect.size()[d]);
    let (start, end) = (range.min, range.max);
    let clip_start = clip_rect.min[d];
    let clip_end = clip_rect.max[d];
    let mut spacing = frame.style.item_spacing[d];

    if let Some(align) = align {
        met(Branch::AlignedTarget);
        let center_factor = align.to_factor();

        let offset = lerp(range.min, range.max, center_factor)
            - lerp(visible_range.0, visible_range.1, center_factor);

        spacing *= remap(center_factor, 0.0, 1.0, -1.0, 1.0);

        offset + spacing - prepared.state.offset[d]
    } else if start < clip_start && end < clip_end {
        met(Branch::TargetBefore);
        // The minimum is negated, not its first operand.
        -min(clip_start - start + spacing, clip_end - end - spacing)
    } else if end > clip_end && start > clip_start {
        met(Branch::TargetBehind);
        min(end - clip_end + spacing, start - clip_start - spacing)
    } else {
        met(Branch::TargetInView);
        0.0
    }
}

/// Moves the offset, the target under way, or makes one.
fn scroll_by(state: &mut State, frame: &Fields, delta: f32, animation: ScrollAnimation, d: usize) {
    let target_offset = state.offset[d] + delta;

    if !frame.settings.animated {
        met(Branch::Jump);
        state.offset[d] = target_offset;
    } else if let Some(animation) = &mut state.offset_target[d] {
        met(Branch::MovedTarget);
        animation.target_offset = target_offset;
    } else {
        met(Branch::NewTarget);
        let now = frame.host.time;
        let animation_duration = animation
            .duration
            .clamp(abs(delta) / animation.points_per_second);
        state.offset_target[d] = Some(ScrollingToTarget {
            animation_time_span: (now, now + widen(animation_duration)),
            target_offset,
        });
    }
}
