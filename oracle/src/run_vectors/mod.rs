//! Settling runs on records and the loads of the tables that they use, frames and resets on a record that is kept, in one list, and the
//! answers that the documents give them.

mod altered;
mod answers;
mod fixed;
mod fixed_clocks;
mod fixed_given;
mod fixed_inside;
mod fixed_records;
mod fixed_refusals;
mod fixed_resets;
mod fixed_rests;
mod fixed_turns;
mod hung_target;
pub mod lists;
mod random;
mod runs;

use crate::clock::{Remembering, StateBytes};
use crate::frame_vectors::{Frame, STORED};
use crate::settling_run::{settle, Settled};
use crate::words::in_bytes;

pub use answers::answers;
pub use fixed::{fixed_calls, fixed_list, fixed_runs};
pub use fixed_given::on_given_records;
pub use fixed_turns::turns;
pub use hung_target::hung_target;
pub use random::{arbitrary_calls, on_any_record, random_list, scene_calls};
pub use runs::{Left, Run, UNWRITTEN};

/// One run by value: the state, the frame's bytes, the increment and the limit.
#[derive(Clone, Debug)]
pub struct Call {
    pub state: Remembering,
    pub frame: Vec<u8>,
    pub increment: f64,
    pub limit: u32,
}

impl Call {
    pub fn answer(&self) -> Settled {
        settle(self.state, &self.frame, self.increment, self.limit)
    }

    /// The words of the increment, the low one first, and of the limit.
    pub fn run(&self) -> [u32; 3] {
        let bits = self.increment.to_bits();
        [bits as u32, (bits >> 32) as u32, self.limit]
    }
}

/// One record of the list.
#[derive(Clone, Debug)]
pub enum Record {
    /// Bytes that are in the table from then on where they load.
    Load(Vec<u8>),
    /// By T.
    Run(Run),
    /// Under the table as the loads before it left it, zeros at first.
    RunBy(Run),
    /// A fresh state in the record that is kept, which is zeros at first.
    Fresh,
    /// A frame by T on that record.
    Frame(Vec<u8>),
    /// A reset of that record.
    Reset,
    /// Other bytes in its place.
    Given(StateBytes),
}

impl Record {
    pub fn frame(frame: &Frame) -> Record {
        Record::Frame(frame.bytes())
    }

    pub fn name(&self) -> &'static str {
        match self {
            Record::Load(_) => "load",
            Record::Run(_) => "run",
            Record::RunBy(_) => "run by a table",
            Record::Fresh => "fresh",
            Record::Frame(_) => "frame",
            Record::Reset => "reset",
            Record::Given(_) => "given",
        }
    }

    /// The record that asks: the kind's word, and what the kind takes; a load's bytes after their number.
    pub fn input_record(&self) -> Vec<u8> {
        let (kind, rest) = match self {
            Record::Load(bytes) => (1, [&in_bytes(&[bytes.len() as u32]), &bytes[..]].concat()),
            Record::Run(run) => (2, run.stored()),
            Record::RunBy(run) => (3, run.stored()),
            Record::Fresh => (4, Vec::new()),
            Record::Frame(bytes) => (5, stored_frame(bytes)),
            Record::Reset => (6, Vec::new()),
            Record::Given(bytes) => (7, bytes.to_vec()),
        };
        [in_bytes(&[kind]), rest].concat()
    }
}

/// The frame's length, and its bytes followed by zeros.
fn stored_frame(bytes: &[u8]) -> Vec<u8> {
    // A longer frame could not be stored whole.
    assert!(bytes.len() <= STORED);
    let mut stored = bytes.to_vec();
    stored.resize(STORED, 0);
    [in_bytes(&[bytes.len() as u32]), stored].concat()
}
