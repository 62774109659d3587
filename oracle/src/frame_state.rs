//! The state that a frame call is given: egui's fields, and check 6.

use crate::rectangles::Rect;
use crate::words::in_hex;

/// A scroll target under way, as egui's type of that name.
#[derive(Clone, Copy, Debug, PartialEq)]
pub struct ScrollingToTarget {
    pub animation_time_span: (f64, f64),
    pub target_offset: f32,
}

/// The state, as egui's type of that name.
#[derive(Clone, Copy, Debug, PartialEq)]
pub struct State {
    pub offset: [f32; 2],
    pub max_offset: [f32; 2],
    pub offset_target: [Option<ScrollingToTarget>; 2],
    pub show_scroll: [bool; 2],
    pub content_is_too_large: [bool; 2],
    pub scroll_bar_interaction: [bool; 2],
    pub vel: [f32; 2],
    pub scroll_start_offset_from_top_left: [Option<f32>; 2],
    pub scroll_stuck_to_end: [bool; 2],
    pub interact_rect: Option<Rect>,
    pub bounced_this_momentum: [bool; 2],
}

impl Default for State {
    fn default() -> State {
        State {
            offset: [0.0; 2],
            max_offset: [0.0; 2],
            offset_target: [None; 2],
            show_scroll: [false; 2],
            content_is_too_large: [false; 2],
            scroll_bar_interaction: [false; 2],
            vel: [0.0; 2],
            scroll_start_offset_from_top_left: [None; 2],
            // Both axes begin on their end, as in the Rust.
            scroll_stuck_to_end: [true; 2],
            interact_rect: None,
            bounced_this_momentum: [false; 2],
        }
    }
}

impl State {
    /// What document 01's line of the listing has behind the refusal: offset and velocity, and the stuck flags as digits.
    pub fn listed(&self) -> String {
        let [x, y] = self.offset.map(f32::to_bits);
        let [across, down] = self.vel.map(f32::to_bits);
        let numbers = in_hex(&[x, y, across, down]);
        let [is_stuck_across, is_stuck_down] = self.scroll_stuck_to_end.map(u32::from);
        format!("{numbers} {is_stuck_across}{is_stuck_down}")
    }

    /// Check 6: "A number in the given state is not finite: 6", or 0; absent options hold no number.
    pub fn refusal(&self) -> u32 {
        let pairs = [self.offset, self.max_offset, self.vel];
        let pairs_hold = pairs.as_flattened().iter().all(|x| x.is_finite());
        let targets_hold = self.offset_target.iter().flatten().all(target_holds);
        let mut presses = self.scroll_start_offset_from_top_left.iter().flatten();
        let presses_hold = presses.all(|x| x.is_finite());
        let rectangle_holds = self.interact_rect.iter().all(rectangle_holds);
        if pairs_hold && targets_hold && presses_hold && rectangle_holds {
            0
        } else {
            6
        }
    }
}

/// The span is looked at as binary64: a finite end that narrows to infinity passes.
fn target_holds(target: &ScrollingToTarget) -> bool {
    let (start, end) = target.animation_time_span;
    start.is_finite() && end.is_finite() && target.target_offset.is_finite()
}

fn rectangle_holds(rectangle: &Rect) -> bool {
    let Rect { min, max } = rectangle;
    [min.x, min.y, max.x, max.y].iter().all(|x| x.is_finite())
}
