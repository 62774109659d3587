//! The calls on records.

use oracle::clock::Remembering;
use oracle::frame_vectors::{bare, random_state};
use oracle::host_calls::{bad_word, drag, frame, fresh, offset, step, wheel};
use oracle::random::Random;
use oracle::words::in_bytes;

const UNWRITTEN: u8 = 0xaa;

#[test]
fn a_written_state_is_read_again() {
    let mut random = Random::new(1);
    for _ in 0..1000 {
        let state = random_state(&mut random, &bare().bytes());
        if state.refusal() != 0 {
            continue; // a not-a-number is not equal to itself
        }
        let mut bytes = [UNWRITTEN; 156];
        state.write(&mut bytes);
        assert_eq!(Remembering::read(&bytes), Some(state));
    }
    let mut bytes = [UNWRITTEN; 156];
    fresh(&mut bytes);
    assert_eq!(Remembering::read(&bytes), Some(Remembering::default()));
}

/// A damaged flag is 6, and a bad frame goes before it; neither buffer changes.
#[test]
fn a_damaged_state_is_6_in_its_place() {
    for flag in [4, 10, 16, 17, 18, 19, 20, 21, 24, 26, 28, 29, 30, 35, 36] {
        let mut state = [0; 156];
        fresh(&mut state);
        state[4 * flag] = 2;
        let (given, mut out, mut shown) = (state, [UNWRITTEN; 100], [UNWRITTEN; 8]);
        assert_eq!(frame(&mut state, &bare().bytes(), &mut out), 6);
        assert_eq!(frame(&mut state, &bare().bytes()[1..], &mut out), 1);
        assert_eq!((state, out), (given, [UNWRITTEN; 100]));
        assert_eq!(offset(&state, &mut shown), 6);
        assert_eq!(shown, [UNWRITTEN; 8]);
    }
}

#[test]
fn a_bad_word_is_that_of_the_frame_alone() {
    let bad = bare().with_number(38, -1.0).with(101, 9).with(63, 5);
    assert_eq!(bad_word(&bad.bytes()), 63);
    assert_eq!(bad_word(&bad.bytes()[1..]), 0);
    assert_eq!(bad_word(&bare().bytes()), 0);
}

/// The axis of the document's readings: bounds 0 to 300, extent 100, rubber band off.
const AXIS: [f32; 5] = [0.0, 300.0, 100.0, 1.0, 1.0];

fn call<const N: usize>(rubber_band: u32, rest: &[u32]) -> [u8; N] {
    let axis = AXIS.map(f32::to_bits);
    let words = [&axis[..], &[rubber_band], rest].concat();
    in_bytes(&words).try_into().expect("the call's length")
}

#[test]
fn the_axis_calls_give_the_readings() {
    let [ten, twenty, far] = [10.0f32, 20.0, 290.0].map(f32::to_bits);
    let mut out = [UNWRITTEN; 4];
    assert_eq!(drag(&call(1, &[ten, twenty]), &mut out), 0);
    assert_eq!(out, 30.0f32.to_le_bytes());
    let mut out = [UNWRITTEN; 16];
    assert_eq!(wheel(&call(0, &[far, 0, twenty, 2, 0, 0, 0]), &mut out), 0);
    assert_eq!(out[..], in_bytes(&[300.0f32.to_bits(), 0, 0, 1])[..]);
}

#[test]
fn a_refused_axis_call_hands_back_what_was_given() {
    let nan = f32::NAN.to_bits();
    let mut out = [UNWRITTEN; 12];
    assert_eq!(step(&call(0, &[7, 8, nan, 1]), &mut out), 3);
    assert_eq!(out[..], in_bytes(&[7, 8, 0])[..]);
    assert_eq!(step(&call(0, &[7, 8, nan, 2]), &mut out), 2);
    let mut out = [UNWRITTEN; 16];
    assert_eq!(wheel(&call(0, &[nan, 8, nan, 5, 0, 0, 9]), &mut out), 2);
    assert_eq!(out[..], in_bytes(&[nan, 8, 9, 0])[..]);
}
