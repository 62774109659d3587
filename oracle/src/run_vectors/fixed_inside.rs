//! Runs that a frame inside ends: past the last time with 3, with an output that is not finite with 8.

use super::lists::{list, moving, on_its_way, paced, restless, with_band, END, NOW, SCREEN};
use super::Call;
use crate::frame_checks::LATEST;
use crate::frame_state::State;
use crate::settling_run::MOST_FRAMES;

/// The step of the times below the last one, 2^-21.
const STEP: f64 = 1.0 / 2_097_152.0;

fn at(time: f64, increment: f64, limit: u32) -> Call {
    let frame = restless().with_time(time.to_bits());
    Call {
        increment,
        ..paced(moving(150.0, 90.0), frame, limit)
    }
}

/// Some frames before the last time, up to it and past it; how many depends on how each sum is rounded.
pub fn past_the_last_time() -> Vec<Call> {
    let mut calls = Vec::new();
    for steps in [0.0, 1.0, 2.0, 7.0, 100.0] {
        for share in [0.25, 0.5, 0.75, 1.0, 1.25, 1.5, 1.75] {
            calls.push(at(LATEST - steps * STEP, share * STEP, 300));
        }
    }
    for increment in [SCREEN, 0.1, 1.0] {
        for passed in [0.0, 0.5, 3.0, 40.0] {
            calls.push(at(LATEST - passed, increment, MOST_FRAMES));
        }
    }
    // The limit or rest comes first.
    calls.push(at(LATEST - 1.0, SCREEN, 60));
    calls.push(at(LATEST - 1.0, SCREEN, 61));
    calls.push(at(LATEST - 1.0, SCREEN, 62));
    let rests = list().with_time(LATEST.to_bits());
    calls.push(paced(moving(150.0, 0.0), rests, MOST_FRAMES));
    calls
}

/// Finite states that leave the finite numbers in their first frame: a spring's pull, a way past the end, a second axis.
pub fn first_frames_refused() -> Vec<Call> {
    let far = moving(3e38, 3e38);
    let mut past = moving(3.3e38, 3.2e38);
    past.max_offset[1] = 3.35e38;
    let mut before = moving(-3e38, -2e38);
    before.offset_target = on_its_way(0.0, 20.0, (NOW, NOW + 1.0)).offset_target;
    let long = with_band().with_number(51, 0.1).with_number(37, 1.0);
    [(far, with_band()), (past, long), (before, with_band())]
        .map(|(state, frame)| paced(state, frame, MOST_FRAMES))
        .into()
}

/// A fling so fast that the band pulls by more than is finite once it is past the end.
pub fn second_frames_refused() -> Vec<Call> {
    let frame = with_band().with_number(51, 0.1).with_number(37, 1.0);
    let velocities = [3.4e38, -3.4e38, 3e38];
    let mut calls: Vec<Call> = velocities
        .map(|velocity| paced(moving(150.0, velocity), frame, MOST_FRAMES))
        .into();
    // The limit comes first.
    calls.push(paced(moving(150.0, 3.4e38), frame, 1));
    calls
}

/// A list that springs back is put far out by its target; the frame after that is refused.
pub fn later_frames_refused() -> Vec<Call> {
    let far = |frames: u32| -> State {
        let there = NOW + f64::from(frames) * SCREEN;
        on_its_way(END + 90.0, 3e38, (there, there))
    };
    let runs = [0, 1, 2, 5, 9].map(|frames| paced(far(frames), with_band(), MOST_FRAMES));
    runs.into()
}
