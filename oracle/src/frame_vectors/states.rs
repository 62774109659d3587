//! States, and the numbers that they hold.

use crate::frame_state::{ScrollingToTarget, State};
use crate::rectangles::{Pos2, Rect};
use crate::words::NAN;

/// A state with every option there, and no two numbers alike.
pub fn stored() -> State {
    let target = |start, end, goal| ScrollingToTarget {
        animation_time_span: (start, end),
        target_offset: goal,
    };
    let interact_rect = Rect {
        min: Pos2 { x: -9.0, y: 19.0 },
        max: Pos2 { x: 191.0, y: 121.0 },
    };
    State {
        offset: [11.0, 299.5],
        max_offset: [-20.0, 300.0],
        offset_target: [
            Some(target(12.0, 12.25, 33.0)),
            Some(target(12.5, 13.1, -44.0)),
        ],
        show_scroll: [true, false],
        content_is_too_large: [false, true],
        scroll_bar_interaction: [true, true],
        vel: [-55.0, 66.0],
        scroll_start_offset_from_top_left: [Some(7.0), Some(-8.0)],
        scroll_stuck_to_end: [false, true],
        interact_rect: Some(interact_rect),
        bounced_this_momentum: [true, false],
    }
}

/// A state that check 6 turns back.
pub fn broken() -> State {
    State {
        vel: [0.0, NAN],
        ..stored()
    }
}

/// Every binary32 number that the state holds.
pub fn singles(state: &mut State) -> Vec<&mut f32> {
    let pairs = [&mut state.offset, &mut state.max_offset, &mut state.vel];
    let targets = state.offset_target.iter_mut().flatten();
    let goals = targets.map(|target| &mut target.target_offset);
    let presses = state.scroll_start_offset_from_top_left.iter_mut().flatten();
    let corners = state.interact_rect.iter_mut().flat_map(|rectangle| {
        let Rect { min, max } = rectangle;
        [&mut min.x, &mut min.y, &mut max.x, &mut max.y]
    });
    let numbers = pairs.into_iter().flatten().chain(goals);
    numbers.chain(presses).chain(corners).collect()
}

/// Every binary64 number that the state holds.
pub fn doubles(state: &mut State) -> Vec<&mut f64> {
    let targets = state.offset_target.iter_mut().flatten();
    let spans = targets.flat_map(|target| {
        let (start, end) = &mut target.animation_time_span;
        [start, end]
    });
    spans.collect()
}

/// Every flag of the state.
pub fn flags(state: &mut State) -> Vec<&mut bool> {
    let pairs = [
        &mut state.show_scroll,
        &mut state.content_is_too_large,
        &mut state.scroll_bar_interaction,
        &mut state.scroll_stuck_to_end,
        &mut state.bounced_this_momentum,
    ];
    pairs.into_iter().flatten().collect()
}

/// The state with one option only, numbered from 0: two targets, two presses, the rectangle.
pub fn with_only(option: usize) -> State {
    let mut state = State::default();
    match option {
        0 | 1 => state.offset_target[option] = stored().offset_target[option],
        2 | 3 => {
            let presses = stored().scroll_start_offset_from_top_left;
            state.scroll_start_offset_from_top_left[option - 2] = presses[option - 2];
        }
        _ => state.interact_rect = stored().interact_rect,
    }
    state
}
