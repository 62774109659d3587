//! The time that a state remembers: what it turns back, what it does not, and the reset.

use oracle::clock::{Remembering, StateBytes};
use oracle::frame_call::{frame_call, rust_call};
use oracle::frame_vectors::{bare, full, Frame};
use oracle::host_calls;
use oracle::random::Random;
use oracle::records::FLAGS;
use oracle::run_vectors::lists::{list, moving, paced, pressed, NOW, SCREEN};
use oracle::words::{from_bytes, in_bytes};

const UNWRITTEN: u8 = 0xaa;

fn at(frame: Frame, time: f64) -> Vec<u8> {
    frame.with_time(time.to_bits()).bytes()
}

fn remembering(time: f64) -> Remembering {
    let egui = moving(150.0, 90.0);
    Remembering { egui, time }
}

/// The refusal of a good frame at that time on a state that remembers that one.
fn refusal(time: f64, remembered: f64) -> u32 {
    remembering(remembered).frame(&at(list(), time)).refusal
}

#[test]
fn only_a_time_before_the_remembered_one_is_12() {
    let [before, after] = [NOW.next_down(), NOW.next_up()];
    assert_eq!(
        [before, NOW, after].map(|time| refusal(time, NOW)),
        [12, 0, 0]
    );
    let least = f64::from_bits(1);
    for zero in [0.0, -0.0] {
        let remembered = [0.0, -0.0, least, -least, -1e300, f64::MIN, f64::MAX];
        let expected = [0, 0, 12, 0, 0, 0, 12];
        assert_eq!(remembered.map(|time| refusal(zero, time)), expected);
    }
}

#[test]
fn a_remembered_time_that_is_not_finite_is_6() {
    let times = [f64::NAN, f64::INFINITY, f64::NEG_INFINITY];
    assert_eq!(times.map(|time| refusal(NOW, time)), [6; 3]);
    assert_eq!(times.map(|time| remembering(time).refusal()), [6; 3]);
    assert_eq!(
        [f64::MAX, f64::MIN].map(|time| remembering(time).refusal()),
        [0; 2]
    );
}

#[test]
fn the_bits_of_an_accepted_frame_are_remembered() {
    let mut kept = Remembering::default();
    assert_eq!(kept.time.to_bits(), 0);
    for time in [
        -0.0,
        0.0,
        -0.0,
        f64::from_bits(1),
        NOW,
        NOW,
        4_294_967_296.0,
    ] {
        assert_eq!(kept.frame(&at(list(), time)).refusal, 0);
        assert_eq!(kept.time.to_bits(), time.to_bits());
    }
}

/// A frame that is refused with each of 1 to 8 but 6, on a state that holds a press.
fn refused_frames() -> [(u32, Vec<u8>); 7] {
    let slips = [
        (2, 1, 2),
        (3, 40, 0x7fc0_0000),
        (4, 71, 0x4000_0000),
        (5, 88, 0),
    ];
    let [two, three, four, five] =
        slips.map(|(number, word, bits)| (number, at(list().with(word, bits), NOW + 1.0)));
    let short = at(list(), NOW + 1.0)[..415].to_vec();
    // The press that is held is no new one on the bar without length.
    let blocked = (7, at(pressed(10.0, 12.0, 50.0), NOW + 1.0));
    let endless = (8, at(pressed(1e-40, 0.0, 50.0), NOW + 1.0));
    [(1, short), two, three, four, five, blocked, endless]
}

/// The state for that number: a press is held where it is to be 8.
fn state_for(number: u32) -> Remembering {
    let mut kept = Remembering::from(moving(150.0, 0.0));
    if number == 8 {
        let held = at(pressed(1e-40, 0.0, 0.0), NOW);
        assert_eq!(kept.frame(&held).refusal, 0);
    }
    kept.time = NOW;
    kept
}

#[test]
fn no_refusal_changes_what_is_remembered() {
    for (number, frame) in refused_frames() {
        let mut kept = state_for(number);
        let given = kept.record();
        assert_eq!(kept.frame(&frame).refusal, number);
        assert_eq!(kept.record(), given);
    }
    let mut kept = remembering(NOW);
    assert_eq!(kept.frame(&at(list(), NOW - 1.0)).refusal, 12);
    assert_eq!(kept.record(), remembering(NOW).record());
}

/// 1 to 6 go before 12, and it goes before 7 and 8.
#[test]
fn twelve_stands_between_6_and_7() {
    for (number, frame) in refused_frames() {
        let mut kept = state_for(number);
        kept.time = NOW + 2.0;
        let expected = if number < 6 { number } else { 12 };
        assert_eq!(kept.frame(&frame).refusal, expected);
    }
    let mut broken = remembering(NOW + 2.0);
    broken.egui.vel[0] = f32::NAN;
    assert_eq!(broken.frame(&at(list(), NOW)).refusal, 6);
    assert_eq!(refusal(NOW, f64::INFINITY), 6);
}

#[test]
fn twelve_comes_behind_9_and_at_the_first_frame_of_a_run() {
    let mut call = paced(remembering(NOW.next_up()), list(), 3);
    let answer = call.answer();
    assert_eq!(
        (answer.refusal, answer.used, answer.state),
        (12, 0, call.state)
    );
    call.limit = 0;
    assert_eq!(call.answer().refusal, 9);
    let equal = paced(remembering(NOW), list(), 3).answer();
    assert_eq!((equal.refusal, equal.used), (0, 3));
    assert_eq!(equal.state.time, NOW + SCREEN + SCREEN);
    // Once more with the same frame: its time is before the last one's.
    let again = paced(equal.state, list(), 3).answer();
    assert_eq!(
        (again.refusal, again.used, again.state),
        (12, 0, equal.state)
    );
}

/// The Rust alone answers at any time, and what it answers is what the call does once the time is no obstacle.
#[test]
fn a_reset_lets_the_same_frame_through() {
    let frame = at(list(), NOW);
    let mut kept = remembering(NOW + 300.0);
    assert_eq!(kept.frame(&frame).refusal, 12);
    kept.reset();
    assert_eq!(kept, remembering(0.0));
    let output = kept.frame(&frame);
    assert_eq!(output, frame_call(moving(150.0, 90.0), &frame));
    assert_eq!(output, rust_call(moving(150.0, 90.0), &frame));
    assert_eq!((kept.egui, kept.time), (output.state, NOW));
}

/// On any bytes: words 38 and 39 are 0 and the others stay.
#[test]
fn a_reset_of_a_record_clears_two_words() {
    let mut random = Random::new(5);
    for _ in 0..200 {
        let mut bytes: StateBytes = [0; 156];
        bytes.fill_with(|| random.word() as u8);
        let mut expected = from_bytes(&bytes);
        expected[37..].fill(0);
        host_calls::reset(&mut bytes);
        assert_eq!(bytes[..], in_bytes(&expected)[..]);
    }
}

/// A frame is 6 on a damaged record before and after a reset; a reset lifts only a time that is not finite.
#[test]
fn a_reset_mends_nothing_else() {
    for flag in FLAGS {
        let mut state = [UNWRITTEN; 156];
        remembering(f64::NAN).write(&mut state);
        let mut out = [UNWRITTEN; 100];
        let frame = at(list(), NOW);
        assert_eq!(host_calls::frame(&mut state, &frame, &mut out), 6);
        let mut damaged = state;
        damaged[4 * flag + 1] = 1;
        host_calls::reset(&mut state);
        host_calls::reset(&mut damaged);
        assert_eq!(damaged[4 * flag + 1], 1);
        assert_eq!(host_calls::frame(&mut damaged, &frame, &mut out), 6);
        assert_eq!(out, [UNWRITTEN; 100]);
        assert_eq!(host_calls::frame(&mut state, &frame, &mut out), 0);
    }
}

/// A fresh state remembers 0 and is before no frame.
#[test]
fn a_fresh_record_remembers_0() {
    let mut state = [UNWRITTEN; 156];
    host_calls::fresh(&mut state);
    assert_eq!(state[148..], [0; 8]);
    for frame in [bare(), full(), list()] {
        let mut kept = Remembering::read(&state).expect("a good record");
        assert_eq!(kept.frame(&at(frame, 0.0)).refusal, 0);
    }
}
