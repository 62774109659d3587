//! The frame call: document 01's readings, refusals, and the shape of its lines.

use oracle::clock::{run, Remembering};
use oracle::frame_call::{frame_call, Output};
use oracle::frame_state::State;
use oracle::frame_vectors::{bare, example, full, Frame};
use oracle::rectangles::{Pos2, Rect};

fn call(state: State, frame: Frame) -> Output {
    frame_call(state, &frame.bytes())
}

/// Document 01's example without sticking, and with a vertical bar from 170 to 180 across.
fn with_bar(start: f32, end: f32, handle_min_length: f32) -> Frame {
    example()
        .with(25, 0)
        .with(10, 1)
        .with_numbers(11, &[0.0, start, 200.0, end])
        .with_number(29, 10.0)
        .with_numbers(32, &[10.0, handle_min_length])
        .with_number(67, 1.0)
}

fn pressed(frame: Frame, y: f32) -> Frame {
    frame.with(79, 1).with_numbers(80, &[175.0, y])
}

#[test]
fn the_example_of_the_listing() {
    let output = call(State::default(), example());
    let line = "0 00000000 43960000 00000000 00000000 11\n";
    assert_eq!(output.listing_line(), line);
}

#[test]
fn the_readings_on_the_bar() {
    let frame = with_bar(0.0, 10.0, 12.0);
    assert_eq!(call(State::default(), pressed(frame, 50.0)).refusal, 7);
    let inside = call(State::default(), pressed(frame, 5.0));
    assert_eq!((inside.refusal, inside.state.offset[1]), (0, 0.0));
    let presses = inside.state.scroll_start_offset_from_top_left;
    assert_eq!(presses, [None, Some(5.0)]);
}

#[test]
fn a_press_is_turned_back_by_the_first_handle_alone() {
    let frame = pressed(with_bar(0.0, 10.0, 12.0), 50.0);
    // A press that is stored is no new one.
    let mut state = State::default();
    state.scroll_start_offset_from_top_left[1] = Some(1.0);
    assert_eq!(call(state, frame).refusal, 0);
    // A factor of 0 leaves the press alone; the one on opening counts where the bar is to show.
    let hidden = frame.with_number(67, -0.0).with_number(69, 1.0);
    assert_eq!(call(State::default(), hidden).refusal, 0);
    assert_eq!(call(State::default(), hidden.with(9, 1)).refusal, 7);
    // As long as the bar, the handle has its place.
    let fitting = frame.with_number(33, 10.0);
    assert_eq!(call(State::default(), fitting).refusal, 0);
}

#[test]
fn a_refusal_answers_the_state_as_given_and_zeros() {
    let moved = call(State::default(), example()).state;
    let bytes = full().bytes();
    let answers = [
        frame_call(moved, &bytes[..415]),
        call(moved, full().with(1, 2)),
        call(moved, full().with_number(7, 2e6)),
        call(moved, full().with_number(7, -1.0)),
        call(moved, full().with_number(37, 0.0)),
        call(moved, pressed(with_bar(0.0, 10.0, 12.0), 50.0)),
    ];
    for (answer, refusal) in answers.iter().zip([1, 2, 3, 4, 5, 7]) {
        assert_eq!((answer.refusal, answer.state), (refusal, moved));
        assert_eq!(answer.record(), [0; 25]);
    }
    let mut broken = moved;
    broken.max_offset[0] = f32::INFINITY;
    let answer = call(broken, example());
    assert_eq!((answer.refusal, answer.state), (6, broken));
    assert_eq!(answer.record(), [0; 25]);
}

#[test]
fn what_is_not_finite_is_8_and_leaves_the_state() {
    // On a bar almost without length the offset of a held press leaves all numbers.
    let tiny = with_bar(0.0, 1e-40, 0.0);
    let held = call(State::default(), pressed(tiny, 0.0));
    assert_eq!(held.refusal, 0);
    let answer = call(held.state, pressed(tiny, 50.0));
    assert_eq!((answer.refusal, answer.state), (8, held.state));
    assert_eq!(answer.record(), [0; 25]);
}

#[test]
fn a_clock_that_runs_back_over_a_reversed_span_is_8() {
    let frame = example().with(25, 0).with(26, 1).with_number(51, 0.1);
    let asking = frame
        .with_number(87, -100.0)
        .with_numbers(89, &[-1.0, -1.0])
        .with_time(10f64.to_bits());
    let begun = call(State::default(), asking);
    assert_eq!(begun.refusal, 0);
    let target = begun.state.offset_target[1].expect("a target");
    assert_eq!(target.animation_time_span, (10.0, 9.0));
    let back = frame.with_time(9.05f64.to_bits());
    assert_eq!(call(begun.state, back).refusal, 8);
}

#[test]
fn the_outputs_of_the_example() {
    let output = call(State::default(), example());
    let corner = |x, y| Pos2 { x, y };
    let rect = |max| Rect::from_min_max(corner(0.0, 0.0), max);
    assert_eq!(output.content_size, [180.0, 400.0]);
    assert_eq!(output.inner_rect, rect(corner(200.0, 100.0)));
    assert_eq!(output.viewport, rect(corner(200.0, 100.0)));
    // The state keeps the one that is shrunk to the content across.
    let shrunk = rect(corner(180.0, 100.0));
    assert_eq!(output.state.interact_rect, Some(shrunk));
    assert_eq!(output.state.max_offset, [0.0, 300.0]);
    assert_eq!(output.state.content_is_too_large, [false, true]);
    assert_eq!(output.handle_rects, [None; 2]);
    assert!(!output.repaint);
}

#[test]
fn a_full_line_has_65_parts() {
    let mut left = Remembering::default();
    let frame = with_bar(0.0, 100.0, 12.0).with_time(2.5f64.to_bits());
    let output = left.frame(&frame.bytes());
    let line = left.full_line(&output);
    let parts: Vec<&str> = line.trim_end().split(' ').collect();
    assert_eq!((parts.len(), parts[0]), (65, "0"));
    assert!(parts[1..].iter().all(|part| part.len() == 8));
    let words: Vec<u32> = parts[1..]
        .iter()
        .map(|part| u32::from_str_radix(part, 16).expect("a word"))
        .collect();
    assert_eq!(words[..39], left.record());
    assert_eq!((words[37], words[38]), (0, 0x4004_0000));
    let numbers = [180.0, 400.0, 0.0, 0.0, 200.0, 100.0, 0.0, 0.0, 200.0, 100.0];
    assert_eq!(words[39..49], numbers.map(f32::to_bits));
    assert_eq!(words[49..54], [0; 5]);
    // The bar stands at the edge of the shrunk rectangle.
    assert_eq!(words[54], 1);
    let handle = [170.0f32, 0.0, 180.0, 25.0].map(f32::to_bits);
    assert_eq!(words[55..59], handle);
    assert_eq!(words[59..], [0; 5]);
}

#[test]
fn frames_run_one_after_another_and_a_short_last_part_is_1() {
    let grown = example().with_number(83, 500.0);
    let bad = bare().with(1, 7);
    let bytes = [example(), bad, grown, grown].map(|frame| frame.bytes());
    let mut bytes = bytes.concat();
    bytes.truncate(3 * 416 + 1);
    let lines: String = run(&bytes)
        .map(|(_, output)| output.listing_line())
        .collect();
    let expected = [
        "0 00000000 43960000 00000000 00000000 11",
        "2 00000000 43960000 00000000 00000000 11",
        "0 00000000 43c80000 00000000 00000000 11",
        "1 00000000 43c80000 00000000 00000000 11",
    ];
    assert_eq!(lines, expected.map(|line| format!("{line}\n")).concat());
    assert_eq!(run(&[]).count(), 0);
}
