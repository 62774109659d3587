//! Runs on states that remember a time: 12 at the first frame, behind 1 to 6 and 9.

use super::fixed_inside::first_frames_refused;
use super::fixed_refusals::slips;
use super::lists::{list, moving, paced, restless, with_band, NOW, SCREEN};
use super::{Call, Run};
use crate::clock::Remembering;
use crate::frame_checks::LATEST;
use crate::words::NAN;

/// After the frame's own time.
pub const LATER: f64 = NOW + 300.0;

fn remembering(call: Call, time: f64) -> Call {
    let state = Remembering { time, ..call.state };
    Call { state, ..call }
}

fn short() -> Call {
    paced(moving(150.0, 90.0), list(), 3)
}

/// A short run whose frame is before the remembered time.
pub fn set_back() -> Call {
    remembering(short(), LATER)
}

/// The same on records with a damaged flag, which goes before 12.
pub fn damaged_before_12() -> Vec<Run> {
    let damaged = |flag| Run::of(&set_back()).with(flag, 2);
    [4, 24, 36].map(damaged).into()
}

/// Around the first frame's time, and what is not finite.
pub fn remembered_times() -> Vec<Call> {
    let times = [
        NOW,
        NOW.next_down(),
        NOW.next_up(),
        NOW + 0.5 * SCREEN,
        LATER,
        -0.0,
        -NOW,
        LATEST,
        f64::MAX,
        f64::MIN,
        f64::INFINITY,
        f64::NEG_INFINITY,
        f64::NAN,
    ];
    let mut calls: Vec<Call> = times.map(|time| remembering(short(), time)).into();
    for at in [0.0f64, -0.0] {
        let frame = list().with_time(at.to_bits());
        let call = paced(moving(150.0, 90.0), frame, 1);
        calls.extend([0.0, -0.0, f64::from_bits(1)].map(|time| remembering(call.clone(), time)));
    }
    calls
}

/// Each of 1 to 6 and 9 where the first frame is before the remembered time too; and 12 where it would be 8.
pub fn before_and_behind_12() -> Vec<Call> {
    let mut calls: Vec<Call> = slips()
        .map(|(word, bits)| paced(moving(150.0, 90.0), list().with(word, bits), 3))
        .into();
    for length in [0, 415, 417] {
        let mut call = short();
        call.frame.resize(length, 0);
        calls.push(call);
    }
    calls.push(paced(moving(NAN, 90.0), list(), 3));
    calls.push(paced(moving(150.0, 90.0), list(), 0));
    calls.push(paced(moving(150.0, 90.0), list().with(61, 1), 3));
    let increment = f64::NAN;
    calls.push(Call {
        increment,
        ..short()
    });
    calls.extend(first_frames_refused());
    calls
        .into_iter()
        .map(|call| remembering(call, LATER))
        .collect()
}

/// The run once more, with the same frame on the state that it left.
pub fn again(call: Call) -> Call {
    let state = call.answer().state;
    Call { state, ..call }
}

/// Runs that follow on their own: 12 where the time went on in between, not where one frame did or none was added.
pub fn runs_that_follow() -> Vec<Call> {
    let standing = Call {
        increment: 0.0,
        ..paced(moving(150.0, 90.0), restless(), 5)
    };
    let calls = [
        short(),
        standing,
        paced(moving(150.0, 90.0), list(), 1),
        paced(moving(150.0, 700.0), with_band(), 500),
        paced(moving(150.0, 0.0), list(), 3),
    ];
    calls.map(again).into()
}
