//! K5: remembered times around a frame's own, and 12 behind 1 to 6.

use super::edges::LATEST;
use super::fixed_order::{resized, slipped, SLIPS};
use super::fixed_states::DOUBLES;
use super::good::{bare, example, full};
use super::states::{broken, stored};
use super::{Call, Frame, List};
use crate::clock::Remembering;
use crate::frame_checks::time;
use crate::frame_state::State;

impl List {
    /// Adds a call of that frame on that state with each of these times remembered.
    fn remembered(&mut self, frame: Frame, egui: State, times: &[f64]) {
        for time in times {
            let state = Remembering { egui, time: *time };
            self.call(Call::new(frame.bytes(), state));
        }
    }
}

/// Equal, one step and some way before and after.
fn around(time: f64) -> [f64; 7] {
    let second = time + 1.0;
    [
        time,
        time.next_down(),
        time.next_up(),
        second,
        time + 300.0,
        time - 1.0,
        -time,
    ]
}

/// Each good frame at an ordinary time, at 0 and at the latest.
pub fn around_the_time(list: &mut List) {
    for frame in [bare(), full(), example()] {
        let own = time(&frame.bytes());
        for at in [own, 0.0, f64::from_bits(LATEST)] {
            let frame = frame.with_time(at.to_bits());
            list.remembered(frame, State::default(), &around(at));
        }
    }
    let own = time(&full().bytes());
    list.remembered(full(), stored(), &around(own));
}

/// Both zeros are one time; the least numbers beside them are others.
pub fn zeros(list: &mut List) {
    let least = f64::from_bits(1);
    for at in [0.0f64, -0.0, least] {
        let frame = full().with_time(at.to_bits());
        list.remembered(frame, stored(), &[0.0, -0.0, least, -least]);
    }
}

/// Times that change sides where a half is taken for the whole, the low one as signed, or the two are exchanged.
pub fn halves(list: &mut List) {
    let times = [
        0x4029_4000_8000_0000,
        0x4029_4000_7fff_ffff,
        0x4029_4000_8000_0001,
        0x4029_4001_0000_0000,
        0x4029_3fff_ffff_ffff,
        0x4000_0000_4029_4000,
        0x0000_0000_4029_4000,
        0x4029_4000_0000_0000,
    ];
    for at in times {
        let frame = full().with_time(at);
        list.remembered(frame, stored(), &times.map(f64::from_bits));
    }
}

/// What is not finite is 6, and what is finite only compared; a negative time is before every frame.
pub fn not_finite(list: &mut List) {
    let times = DOUBLES.map(f64::from_bits);
    for frame in [bare(), full()] {
        list.remembered(frame, State::default(), &times);
        list.remembered(frame, stored(), &[-1.0, -1e300, f64::from_bits(LATEST + 1)]);
    }
}

/// A later time behind another fault of each number: the fault's number wins, on a fresh state and on others.
pub fn faults_before_12(list: &mut List) {
    let (later, none) = (4e9, f64::NAN);
    for slip in SLIPS.as_flattened() {
        let frame = slipped(full(), slip.0);
        list.remembered(frame, stored(), &[later, none]);
        list.remembered(frame, broken(), &[later]);
    }
    list.remembered(full(), broken(), &[later, none, 0.0]);
    list.remembered(
        full().with_time((-1.0f64).to_bits()),
        stored(),
        &[0.0, later],
    );
    for length in [0, 208, 212, 415, 417, 424] {
        for egui in [stored(), broken()] {
            let state = Remembering { egui, time: later };
            list.call(Call {
                state,
                ..resized(full(), length, 0)
            });
        }
    }
}
