//! Frames and states handed to a frame call, and which of checks 1 to 6 and 12 turns them back.

mod edges;
mod fixed;
mod fixed_clocks;
mod fixed_flags;
mod fixed_numbers;
mod fixed_options;
mod fixed_order;
mod fixed_ranges;
mod fixed_states;
mod frame;
mod good;
pub(crate) mod places;
mod random;
pub(crate) mod random_words;
mod states;

use std::collections::HashSet;

use crate::clock::Remembering;
use crate::frame_checks::bad_word;
use crate::frame_state::State;
use crate::words::in_bytes;

pub use fixed::fixed_list;
pub(crate) use fixed_states::DOUBLES;
pub use frame::Frame;
pub use good::{bare, example, full};
pub use places::PAIRS;
pub(crate) use random::good_frame;
pub use random::{random_list, random_state};
pub(crate) use states::{stored, with_only};

/// How many bytes of a frame a record stores.
pub(crate) const STORED: usize = 424;

/// One call: the frame's bytes and the state given.
#[derive(Clone, Debug)]
pub struct Call {
    frame: Vec<u8>,
    state: Remembering,
}

impl Call {
    /// A longer frame could not be stored whole.
    fn new(frame: Vec<u8>, state: impl Into<Remembering>) -> Call {
        assert!(frame.len() <= STORED);
        let state = state.into();
        Call { frame, state }
    }

    /// The frame's bytes.
    pub fn frame(&self) -> &[u8] {
        &self.frame
    }

    /// The first of 1 to 6 and 12 that applies, or 0.
    pub fn refusal(&self) -> u32 {
        self.state.refusal_of(&self.frame)
    }

    /// The record that asks: the length, the frame's bytes followed by zeros, the state; 584 bytes.
    pub fn input_record(&self) -> Vec<u8> {
        let mut stored = self.frame.clone();
        stored.resize(STORED, 0);
        let length = in_bytes(&[self.frame.len() as u32]);
        [length, stored, in_bytes(&self.state.record())].concat()
    }

    /// The line that answers: the refusal, and the frame's bad word.
    pub fn output_line(&self) -> String {
        format!("{} {}\n", self.refusal(), bad_word(&self.frame))
    }
}

/// A list of calls under construction, and the records that it has.
#[derive(Default)]
struct List {
    calls: Vec<Call>,
    known: HashSet<Vec<u8>>,
}

impl List {
    /// Adds a call, once; records are compared, since not-a-number differs from itself.
    fn call(&mut self, call: Call) {
        if self.known.insert(call.input_record()) {
            self.calls.push(call);
        }
    }

    /// Adds a call of a whole frame with a fresh state.
    fn frame(&mut self, frame: Frame) {
        self.call(Call::new(frame.bytes(), State::default()));
    }

    /// Adds calls of the frame with each of these numbers at that word.
    fn numbers(&mut self, frame: Frame, word: usize, numbers: &[f32]) {
        for x in numbers {
            self.frame(frame.with_number(word, *x));
        }
    }

    /// Adds calls of the frame with each of these bits at that word.
    fn words(&mut self, frame: Frame, word: usize, values: &[u32]) {
        for bits in values {
            self.frame(frame.with(word, *bits));
        }
    }
}
