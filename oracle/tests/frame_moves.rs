//! What moves a frame, on numbers that can be followed by hand.

use oracle::frame_call::{frame_call, Output};
use oracle::frame_state::State;
use oracle::frame_vectors::{example, Frame};
use oracle::rectangles::{Pos2, Rect};

/// The frame's answer, which no check may turn back.
fn call(state: State, frame: Frame) -> Output {
    let output = frame_call(state, &frame.bytes());
    assert_eq!(output.refusal, 0);
    output
}

/// Document 01's example without sticking, enabled, with the wheel and dragging, spacing 4.
fn plain() -> Frame {
    example()
        .with_all([19, 21, 48, 49], 1)
        .with(25, 0)
        .with(20, 1)
        .with_numbers(22, &[1.0, 1.0])
        .with_numbers(34, &[4.0, 4.0])
        .with_number(51, 0.125)
}

/// The state after a frame that put the offset there.
fn placed(y: f32) -> State {
    let frame = plain().with(17, 1).with_number(18, y);
    let state = call(State::default(), frame).state;
    assert_eq!(state.offset, [0.0, y]);
    state
}

fn wheeled(frame: Frame, source: u32, delta: [f32; 2]) -> Frame {
    let over = frame.with(54, 1).with_numbers(55, &[50.0, 50.0]);
    over.with(63, source).with_numbers(64, &delta)
}

/// A target on the vertical axis, with content that begins there.
fn aimed(frame: Frame, min: f32, range: [f32; 2], align: u32) -> Frame {
    let frame = frame.with_number(85, min).with(98, 1);
    let frame = frame.with_numbers(99, &range).with(101, align);
    frame.with_numbers(102, &[200.0, 0.25, 0.5])
}

#[test]
fn a_list_that_grows_is_followed_until_the_wheel_leaves_its_end() {
    let sticking = plain().with(25, 1);
    let state = call(State::default(), sticking).state;
    let away = call(state, wheeled(sticking, 2, [0.0, 20.0]));
    assert_eq!(away.state.offset[1], 280.0);
    assert_eq!(away.state.scroll_stuck_to_end, [true, false]);
    assert_eq!(away.wheel_delta_left, [0.0, 0.0]);
    let grown = sticking.with_number(83, 500.0);
    assert_eq!(call(away.state, grown).state.offset[1], 280.0);
    assert_eq!(call(state, grown).state.offset[1], 400.0);
}

#[test]
fn the_wheel_takes_the_bounds_of_this_frame() {
    let state = placed(300.0);
    let grown = plain().with_number(83, 410.0);
    let output = call(state, wheeled(grown, 2, [0.0, -20.0]));
    assert_eq!(output.state.offset[1], 310.0);
    // Nothing left to scroll: the delta is left for a parent.
    let output = call(output.state, wheeled(grown, 2, [3.0, -20.0]));
    assert_eq!(output.wheel_delta_left, [3.0, -20.0]);
    assert_eq!(output.state.offset[1], 310.0);
}

#[test]
fn the_only_direction_takes_both_deltas() {
    let frame = plain().with(36, 1).with_number(23, 2.0);
    let output = call(placed(100.0), wheeled(frame, 2, [3.0, -20.0]));
    assert_eq!(output.state.offset[1], 134.0);
    assert_eq!(output.wheel_delta_left, [0.0, 0.0]);
    let both = plain().with_all([1, 2], 1).with(36, 1);
    let output = call(placed(100.0), wheeled(both, 2, [3.0, -20.0]));
    assert_eq!(output.state.offset[1], 120.0);
    assert_eq!(output.wheel_delta_left, [3.0, 0.0]);
}

#[test]
fn the_pointer_counts_inside_the_clip_alone() {
    let frame = wheeled(plain(), 2, [0.0, -20.0]);
    let clipped = frame.with_number(47, 49.0);
    assert_eq!(call(placed(100.0), clipped).state.offset[1], 100.0);
    let on_its_edge = frame.with_number(47, 50.0);
    assert_eq!(call(placed(100.0), on_its_edge).state.offset[1], 120.0);
    let disabled = frame.with(48, 0);
    assert_eq!(call(placed(100.0), disabled).state.offset[1], 100.0);
}

#[test]
fn a_drag_moves_and_its_end_throws() {
    let dragged = plain().with(61, 1).with_numbers(57, &[9.0, 30.0]);
    let output = call(placed(150.0), dragged.with(62, 1));
    assert_eq!(output.state.offset, [0.0, 120.0]);
    let stopped = plain().with(62, 1).with_numbers(59, &[7.0, -100.0]);
    let output = call(output.state, stopped.with_number(51, 0.0));
    // The horizontal axis is not enabled and rests, which clears the sign.
    assert_eq!(output.state.vel.map(f32::to_bits), [0, 100f32.to_bits()]);
    assert!(output.repaint);
    // The eighth of a second is cut to 0.1: exp(-0.1) of the velocity stays, the rest is the way.
    let coasting = call(output.state, plain());
    let (vel, offset) = (coasting.state.vel[1], coasting.state.offset[1]);
    assert!((90.48..90.49).contains(&vel), "{vel}");
    assert!((129.51..129.52).contains(&offset), "{offset}");
    // Never, without a touch screen, or not enabled: no drag.
    for word in [20, 48, 49] {
        let output = call(placed(150.0), dragged.with(word, 0));
        assert_eq!(output.state.offset[1], 150.0);
    }
}

#[test]
fn a_drag_beyond_the_end_stays_there_with_rubber_band_alone() {
    let dragged = plain().with(61, 1).with_numbers(57, &[0.0, -100.0]);
    let output = call(placed(300.0), dragged);
    assert_eq!(output.state.offset[1], 300.0);
    let output = call(placed(300.0), dragged.with(39, 1));
    assert_eq!(output.state.offset[1], 300.0 + 100.0 * 0.55);
}

#[test]
fn a_target_is_reached_at_once_without_animation() {
    let at_once = |state, min, range, align| {
        let output = call(state, aimed(plain(), min, range, align));
        assert!(output.repaint);
        output.state.offset[1]
    };
    let far = [200.0, 220.0];
    let reached = [0, 1, 2, 3].map(|align| at_once(placed(0.0), 0.0, far, align));
    assert_eq!(reached, [124.0, 196.0, 160.0, 124.0]);
    let above = at_once(placed(250.0), -250.0, [-50.0, -30.0], 0);
    assert_eq!(above, 196.0);
    let seen = call(placed(0.0), aimed(plain(), 0.0, [10.0, 20.0], 0));
    assert_eq!((seen.state.offset[1], seen.repaint), (0.0, false));
}

#[test]
fn a_target_under_way_takes_its_time() {
    let animated = plain().with(26, 1).with_time(10f64.to_bits());
    let asking = aimed(animated, 0.0, [200.0, 220.0], 1);
    let begun = call(placed(0.0), asking).state;
    let target = begun.offset_target[1].expect("a target");
    assert_eq!(target.animation_time_span, (10.0, 10.5));
    assert_eq!((target.target_offset, begun.offset[1]), (196.0, 0.0));
    assert!(!begun.scroll_stuck_to_end[1]);
    // Standing, half way, and beyond.
    let at = |time: f64, dt| {
        let frame = animated.with_time(time.to_bits()).with_number(51, dt);
        call(begun, frame)
    };
    let standing = at(10.0, 0.0);
    assert_eq!((standing.state.offset[1], standing.repaint), (0.0, true));
    assert_eq!(at(9.0, 0.0).state.offset[1], 0.0);
    let before = 0.31640625; // the part of the way at three eighths of the time
    let half_way = at(10.25, 0.0625).state.offset[1];
    assert_eq!(half_way, 196.0 * ((0.5 - before) / (1.0 - before)));
    let arrived = at(10.5, 0.0);
    assert_eq!((arrived.state.offset[1], arrived.repaint), (196.0, false));
    assert_eq!(arrived.state.offset_target, [None; 2]);
}

#[test]
fn a_delta_is_taken_on_enabled_directions_alone() {
    let frame = plain().with_numbers(86, &[5.0, -40.0]);
    let output = call(placed(100.0), frame);
    assert_eq!(output.state.offset, [0.0, 140.0]);
    assert_eq!(output.scroll_delta_left, [5.0, 0.0]);
}

/// A vertical bar from 170 to 180 across and 0 to 100 down, with a handle of 25.
fn with_bar() -> Frame {
    plain()
        .with(9, 2)
        .with_number(29, 10.0)
        .with_number(32, 10.0)
        .with_number(67, 1.0)
}

fn pressed(y: f32) -> Frame {
    with_bar().with(79, 1).with_numbers(80, &[175.0, y])
}

#[test]
fn a_press_on_the_handle_holds_it_where_it_was_taken() {
    let taken = call(placed(0.0), pressed(10.0)).state;
    assert_eq!(taken.offset[1], 0.0);
    let held = [None, Some(10.0)];
    assert_eq!(taken.scroll_start_offset_from_top_left, held);
    let moved = call(taken, pressed(47.5));
    assert_eq!(moved.state.offset[1], 150.0);
    let handle = Rect::from_min_max(Pos2 { x: 170.0, y: 37.5 }, Pos2 { x: 180.0, y: 62.5 });
    assert_eq!(moved.handle_rects, [None, Some(handle)]);
    assert_eq!(call(moved.state, pressed(500.0)).state.offset[1], 300.0);
    let left = call(moved.state, with_bar()).state;
    assert_eq!(left.scroll_start_offset_from_top_left, [None; 2]);
    // Without a bar the press stays stored.
    let hidden = call(moved.state, plain()).state;
    assert_eq!(hidden.scroll_start_offset_from_top_left, held);
}

#[test]
fn a_press_beside_the_handle_centres_it() {
    let output = call(placed(0.0), pressed(50.0));
    assert_eq!(output.state.offset[1], 150.0);
    let held = output.state.scroll_start_offset_from_top_left;
    assert_eq!(held, [None, Some(12.5)]);
    // At the level of the handle but beside it across: the press is outside.
    let beside = pressed(20.0).with_number(80, 181.0);
    assert_eq!(call(placed(0.0), beside).state.offset[1], 30.0);
}

#[test]
fn solid_bars_take_their_space_by_the_factor_given() {
    let solid = plain().with(27, 0).with(9, 1).with_number(28, 16.0);
    let output = call(State::default(), solid.with_number(67, 0.5));
    assert_eq!(output.inner_rect.max, Pos2 { x: 192.0, y: 100.0 });
    // Opening adds a handle in this frame, and takes no space yet.
    let output = call(State::default(), solid.with_number(69, 0.5));
    assert_eq!(output.inner_rect.max, Pos2 { x: 200.0, y: 100.0 });
    assert!(output.handle_rects[1].is_some());
    assert_eq!(output.state.show_scroll, [false, true]);
    assert!(output.repaint);
    // Floating ones take all of it once they were shown.
    let floating = solid.with(27, 1);
    let output = call(output.state, floating);
    assert_eq!(output.inner_rect.max, Pos2 { x: 184.0, y: 100.0 });
    assert!(!output.repaint);
}

#[test]
fn the_viewport_is_taken_before_anything_moves() {
    let frame = wheeled(plain(), 2, [0.0, -20.0]);
    let output = call(placed(100.0), frame.with(15, 1).with_number(16, -0.0));
    let corner = output.viewport.min;
    assert_eq!(
        [corner.x.to_bits(), corner.y.to_bits()],
        [0, 100f32.to_bits()]
    );
    assert_eq!(output.state.offset[0].to_bits(), 0x8000_0000);
}
