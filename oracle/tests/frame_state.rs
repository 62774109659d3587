//! The state's record, and check 6.

use oracle::clock::Remembering;
use oracle::frame_state::{ScrollingToTarget, State};
use oracle::rectangles::{Pos2, Rect};

/// A state whose words all differ from those next to them.
fn state() -> State {
    let target = |start, end, goal| ScrollingToTarget {
        animation_time_span: (f64::from_bits(start), f64::from_bits(end)),
        target_offset: f32::from_bits(goal),
    };
    let pair = |first| [first, first + 1].map(f32::from_bits);
    let [left, top] = pair(32);
    let [right, bottom] = pair(34);
    State {
        offset: pair(1),
        max_offset: pair(3),
        offset_target: [
            Some(target(7 << 32 | 6, 9 << 32 | 8, 10)),
            Some(target(13 << 32 | 12, 15 << 32 | 14, 16)),
        ],
        show_scroll: [false, true],
        content_is_too_large: [false, true],
        scroll_bar_interaction: [true, false],
        vel: pair(23),
        scroll_start_offset_from_top_left: [26, 28].map(f32::from_bits).map(Some),
        scroll_stuck_to_end: [false, true],
        interact_rect: Some(Rect {
            min: Pos2 { x: left, y: top },
            max: Pos2 {
                x: right,
                y: bottom,
            },
        }),
        bounced_this_momentum: [true, false],
    }
}

#[test]
fn the_record_has_the_fields_in_order() {
    let expected = [
        1, 2, 3, 4, 1, 6, 7, 8, 9, 10, 1, 12, 13, 14, 15, 16, 0, 1, 0, 1, 1, 0, 23, 24, 1, 26, 1,
        28, 0, 1, 1, 32, 33, 34, 35, 1, 0, 38, 39,
    ];
    let (egui, time) = (state(), f64::from_bits(39 << 32 | 38));
    assert_eq!(Remembering { egui, time }.record(), expected);
}

#[test]
fn absent_options_have_zeros() {
    let mut fresh = [0; 39];
    fresh[28..30].fill(1);
    assert_eq!(Remembering::default().record(), fresh);
    let mut state = state();
    state.offset_target[0] = None;
    state.scroll_start_offset_from_top_left[1] = None;
    state.interact_rect = None;
    let record = Remembering::from(state).record();
    assert_eq!(record[4..11], [0, 0, 0, 0, 0, 0, 1]);
    assert_eq!(record[24..28], [1, 26, 0, 0]);
    assert_eq!(record[30..35], [0; 5]);
}

#[test]
fn only_finiteness_is_asked() {
    let mut state = state();
    assert_eq!(State::default().refusal(), 0);
    assert_eq!(state.refusal(), 0);
    state.offset = [f32::MAX, f32::MIN];
    let target = state.offset_target[1].as_mut().expect("a target");
    target.animation_time_span = (f64::MAX, f64::MIN);
    assert_eq!(state.refusal(), 0);
}

#[test]
fn what_is_not_finite_is_6() {
    for bad in [f32::NAN, f32::INFINITY, f32::NEG_INFINITY] {
        let mut states = [state(); 9];
        states[0].offset[1] = bad;
        states[1].max_offset[0] = bad;
        states[2].vel[1] = bad;
        states[3].scroll_start_offset_from_top_left[0] = Some(bad);
        for (place, state) in states[4..6].iter_mut().enumerate() {
            let target = state.offset_target[place].as_mut().expect("a target");
            target.target_offset = bad;
        }
        let target = states[6].offset_target[0].as_mut().expect("a target");
        target.animation_time_span.0 = bad.into();
        let target = states[7].offset_target[1].as_mut().expect("a target");
        target.animation_time_span.1 = bad.into();
        states[8].interact_rect.as_mut().expect("a rectangle").max.y = bad;
        assert_eq!(states.map(|state| state.refusal()), [6; 9]);
    }
}
