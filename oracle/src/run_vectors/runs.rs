//! A run in the bytes that the library takes; some records are those of no state.

use super::altered::{record_of, with_absent, with_word};
use super::{stored_frame, Call};
use crate::clock::StateBytes;
use crate::host_calls::{settle, settle_by, RunBytes, UsedBytes};
use crate::tables::Table;
use crate::words::{from_bytes, in_bytes};

/// What the buffer for the frames used holds if nothing else is said; no run uses so many.
pub const UNWRITTEN: UsedBytes = [0xff; 4];

/// What the call is handed.
#[derive(Clone, Debug)]
pub struct Run {
    pub state: StateBytes,
    pub frame: Vec<u8>,
    pub run: RunBytes,
    pub used: UsedBytes,
}

/// The answer, and what both buffers hold after the call.
#[derive(Clone, Copy, Debug, PartialEq)]
pub struct Left {
    pub refusal: u32,
    pub state: StateBytes,
    pub used: UsedBytes,
}

impl Run {
    /// On the record of the call's state, with zeros for absent options.
    pub fn of(call: &Call) -> Run {
        Run {
            state: record_of(&call.state),
            frame: call.frame.clone(),
            run: in_bytes(&call.run()).try_into().expect("three words"),
            used: UNWRITTEN,
        }
    }

    /// With that word of the record, numbered from 0.
    pub fn with(self, word: usize, bits: u32) -> Run {
        let state = with_word(self.state, word, bits);
        Run { state, ..self }
    }

    /// With such words behind the flags of absent options.
    pub fn with_absent(self, word: impl FnMut() -> u32) -> Run {
        let state = with_absent(self.state, word);
        Run { state, ..self }
    }

    pub fn limit(&self) -> u32 {
        from_bytes(&self.run)[2]
    }

    /// By T, or under a table.
    pub fn left(&self, table: Option<&'static Table>) -> Left {
        let (mut state, mut used) = (self.state, self.used);
        let refusal = match table {
            None => settle(&mut state, &self.frame, &self.run, &mut used),
            Some(table) => settle_by(&mut state, &self.frame, table, &self.run, &mut used),
        };
        Left {
            refusal,
            state,
            used,
        }
    }

    /// The frame's length, its bytes followed by zeros, the state, the increment and the limit, the buffer for the frames used.
    pub(super) fn stored(&self) -> Vec<u8> {
        let frame = stored_frame(&self.frame);
        [&frame[..], &self.state, &self.run, &self.used].concat()
    }
}
