//! Loads of tables and calls under them, one list on one state, and the answers that the documents give them.

mod answers;
mod fixed;
mod fixed_falls;
mod random;

use crate::axis_vectors::Call;
use crate::scenes::Played;
use crate::words::in_bytes;

pub use answers::answers;
pub use fixed::{clearing_frames, fixed_list};
pub use random::random_list;

/// One record of the list.
#[derive(Clone, Debug)]
pub enum Record {
    /// Bytes that serve from then on where they load; where they do not, T does.
    Load(Vec<u8>),
    /// The bits of a number.
    Exp(u32),
    /// An axis call, a step.
    Step(Call),
    /// A whole frame, on the state that the frames and resets before it left.
    Frame(Vec<u8>),
    /// A reset of that state.
    Reset,
}

impl From<Played> for Record {
    fn from(played: Played) -> Record {
        match played {
            Played::Frame(bytes) => Record::Frame(bytes),
            Played::Reset => Record::Reset,
        }
    }
}

impl Record {
    /// The kind's number, from 1 on.
    pub fn kind(&self) -> usize {
        match self {
            Record::Load(_) => 1,
            Record::Exp(_) => 2,
            Record::Step(_) => 3,
            Record::Frame(_) => 4,
            Record::Reset => 5,
        }
    }

    pub fn name(&self) -> &'static str {
        ["load", "exp", "step", "frame", "reset"][self.kind() - 1]
    }

    /// The record that asks: the kind's word, and what the kind takes; a load's bytes after their number.
    pub fn input_record(&self) -> Vec<u8> {
        let kind = in_bytes(&[self.kind() as u32]);
        let rest = match self {
            Record::Load(bytes) => [&in_bytes(&[bytes.len() as u32]), &bytes[..]].concat(),
            Record::Exp(bits) => in_bytes(&[*bits]),
            Record::Step(call) => in_bytes(call.operands()),
            Record::Frame(bytes) => bytes.clone(),
            Record::Reset => Vec::new(),
        };
        [kind, rest].concat()
    }
}
