//! Calls on one lent drawer, and words that somebody else writes in it, in one list, and the answers that the documents give them.

mod answers;
mod damages;
mod fixed;
mod fixed_damages;
mod fixed_honest;
mod fixed_lengths;
mod fixed_written;
mod ids;
mod random;
mod random_written;
mod script;
mod states;

use crate::clock::StateBytes;
use crate::words::in_bytes;

pub use answers::{answers, mark, Kept, UNWRITTEN};
pub use fixed::fixed_list;
pub use ids::IDS;
pub use random::{honest_list, random_list};
pub use random_written::written_list;
pub use states::{with_words, States};

/// The most bytes that a stored drawer has: 25 records.
pub const STORED: usize = 4_200;

/// One record of the list.
#[derive(Clone, Debug)]
pub enum Call {
    /// These bytes are the buffer.
    Given(Vec<u8>),
    /// Four bytes go to that place of the buffer.
    Put(usize, [u8; 4]),
    Lay,
    Save(u64, Box<StateBytes>),
    Load(u64),
    Forget(u64),
}

impl Call {
    pub fn name(&self) -> &'static str {
        match self {
            Call::Given(_) => "given",
            Call::Put(..) => "put",
            Call::Lay => "lay",
            Call::Save(..) => "save",
            Call::Load(_) => "load",
            Call::Forget(_) => "forget",
        }
    }

    /// The record that asks: the kind's word, and what the kind takes; given bytes after their number.
    pub fn input_record(&self) -> Vec<u8> {
        let (kind, rest) = match self {
            Call::Given(bytes) => (1, [&in_bytes(&[bytes.len() as u32]), &bytes[..]].concat()),
            Call::Put(place, bytes) => (2, [in_bytes(&[*place as u32]), bytes.to_vec()].concat()),
            Call::Lay => (3, Vec::new()),
            Call::Save(id, state) => (4, [&id.to_le_bytes(), &state[..]].concat()),
            Call::Load(id) => (5, id.to_le_bytes().to_vec()),
            Call::Forget(id) => (6, id.to_le_bytes().to_vec()),
        };
        [in_bytes(&[kind]), rest].concat()
    }
}
