//! The order of the checks, and the length.

use super::good::{bare, full};
use super::states::{broken, stored};
use super::{Call, Frame, List};
use crate::frame_state::State;
use crate::words::{INF, NAN};

/// A word and the bits that make it bad.
pub type Slip = (usize, u32);

const MINUS_ONE: u32 = (-1.0f32).to_bits();

/// For checks 2 to 5 in turn: a slip early in the frame, and one late in it.
pub const SLIPS: [[(Slip, Slip); 4]; 2] = [
    [
        ((1, 2), (101, 4)),
        ((5, NAN.to_bits()), (104, NAN.to_bits())),
        ((5, MINUS_ONE), (104, MINUS_ONE)),
        ((37, 0), (102, 0)),
    ],
    [
        ((9, 3), (79, 2)),
        ((16, INF.to_bits()), (93, (-INF).to_bits())),
        ((28, MINUS_ONE), (83, MINUS_ONE)),
        ((38, MINUS_ONE), (88, 0)),
    ],
];

pub fn slipped(frame: Frame, (word, bits): Slip) -> Frame {
    frame.with(word, bits)
}

/// Two slips of different numbers, each of them before the other in the frame.
pub fn two_slips(list: &mut List) {
    for slips in SLIPS {
        for (index, lower) in slips.iter().enumerate() {
            for higher in &slips[index + 1..] {
                list.frame(slipped(slipped(full(), lower.0), higher.1));
                list.frame(slipped(slipped(full(), lower.1), higher.0));
            }
        }
    }
}

/// Slips of every number from one check on.
pub fn many_slips(list: &mut List) {
    for slips in SLIPS {
        for first in 0..slips.len() {
            let rest = slips[first..].iter();
            list.frame(rest.fold(full(), |frame, slip| slipped(frame, slip.1)));
        }
    }
}

/// The frame cut to that length, or followed by that byte.
pub fn resized(frame: Frame, length: usize, byte: u8) -> Call {
    let mut bytes = frame.bytes();
    bytes.resize(length, byte);
    Call::new(bytes, State::default())
}

/// Zeros after a short frame are not of the frame, and what follows a whole one still counts.
pub fn lengths(list: &mut List) {
    for frame in [bare(), full()] {
        for length in [0, 1, 4, 208, 412, 415, 416, 417, 418, 420, 424] {
            list.call(resized(frame, length, 0));
        }
        for length in [417, 420, 424] {
            list.call(resized(frame, length, u8::MAX));
        }
    }
}

/// The length goes before every other check.
pub fn lengths_with_slips(list: &mut List) {
    for slip in SLIPS.as_flattened() {
        for length in [415, 420] {
            list.call(resized(slipped(full(), slip.0), length, 0));
        }
    }
}

/// A bad state behind a bad frame: the frame's number wins.
pub fn slips_and_states(list: &mut List) {
    for slip in SLIPS.as_flattened() {
        let frame = slipped(full(), slip.1);
        list.call(Call::new(frame.bytes(), broken()));
        list.call(Call::new(frame.bytes(), stored()));
    }
    for frame in [bare(), full()] {
        for length in [0, 415, 416, 417] {
            let state = broken().into();
            list.call(Call {
                state,
                ..resized(frame, length, 0)
            });
        }
    }
}
