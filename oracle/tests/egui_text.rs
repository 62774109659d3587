//! egui's own text answers for the Rust, and the port is held to it.
#![cfg(feature = "egui")]

use oracle::axis_vectors;
use oracle::clock::run;
use oracle::frame_call::frame_call;
use oracle::frame_state::State;
use oracle::judge::{self, different, marks, Kind, IS_EDITED};
use oracle::run_vectors::lists::{list, pressed};
use oracle::scenes::scene_list;

/// Of all kinds, in this thread.
fn held() -> u64 {
    Kind::ALL.map(judge::held).iter().sum()
}

#[test]
fn the_text_is_not_edited() {
    const { assert!(!IS_EDITED) };
}

#[test]
fn its_sides_are_counted_where_it_is_marked() {
    assert_eq!(marks::SITES.is_empty(), !cfg!(feature = "marked"));
}

/// That the calls, which answer how many are accepted, are held at least that often, and none differs.
fn assert_held(least: usize, calls: impl FnOnce() -> usize) {
    let before = held();
    let accepted = calls();
    assert!(accepted > least);
    assert!(held() - before >= accepted as u64);
    assert_eq!(different(), 0);
}

#[test]
fn the_port_answers_alike_on_scenes() {
    let frames = scene_list(7, 5_000).concat();
    let accepted = run(&frames).filter(|(_, output)| output.refusal == 0);
    assert_held(3_000, || accepted.count());
}

#[test]
fn the_port_answers_alike_on_axis_calls() {
    let calls = axis_vectors::fixed_list();
    let accepted = calls.iter().filter(|call| call.refusal() == 0);
    assert_held(1_000, || accepted.count());
}

#[test]
fn a_panic_of_the_clamp_is_7_and_leaves_nothing_behind() {
    let accepted = frame_call(State::default(), &list().bytes());
    let refused = frame_call(accepted.state, &pressed(10.0, 12.0, 50.0).bytes());
    assert_eq!((refused.refusal, refused.state), (7, accepted.state));
    let again = frame_call(accepted.state, &list().bytes());
    assert_eq!(again.refusal, 0);
    assert_eq!(different(), 0);
}
