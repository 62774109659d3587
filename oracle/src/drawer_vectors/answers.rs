//! The answers of a list, each on the buffer that those before it left.

use super::Call;
use crate::answers::Answer;
use crate::clock::StateBytes;
use crate::drawer::{forget, lay, load, save};

/// What a load is handed to write in.
pub const UNWRITTEN: StateBytes = [0xaa; 156];

/// The buffer, and what the last load handed out.
pub struct Kept {
    pub bytes: Vec<u8>,
    pub state: StateBytes,
}

impl Kept {
    /// No bytes.
    pub fn none() -> Kept {
        Kept {
            bytes: Vec::new(),
            state: UNWRITTEN,
        }
    }

    /// Answers 0 or the refusal.
    pub fn call(&mut self, call: &Call) -> u32 {
        self.state = UNWRITTEN;
        match call {
            Call::Given(bytes) => {
                self.bytes.clone_from(bytes);
                0
            }
            Call::Put(place, word) => {
                self.bytes[*place..*place + 4].copy_from_slice(word);
                0
            }
            Call::Lay => lay(&mut self.bytes),
            Call::Save(id, state) => save(&mut self.bytes, *id, state),
            Call::Load(id) => load(&self.bytes, *id, &mut self.state),
            Call::Forget(id) => forget(&mut self.bytes, *id),
        }
    }
}

/// The answers, with no buffer at first.
pub fn answers(list: &[Call]) -> Vec<Answer> {
    let mut kept = Kept::none();
    list.iter().map(|call| answer(&mut kept, call)).collect()
}

/// The refusal, the mark of the buffer, and a load's of what it handed out.
fn answer(kept: &mut Kept, call: &Call) -> Answer {
    let refusal = kept.call(call);
    let (name, of_buffer) = (call.name(), mark(&kept.bytes));
    let of_state = match call {
        Call::Load(_) => format!(" {:08x}", mark(&kept.state)),
        _ => String::new(),
    };
    let line = format!("{name} {refusal} {of_buffer:08x}{of_state}\n");
    Answer { refusal, line }
}

/// A mark in which one changed byte always shows: odd factors lose nothing.
pub fn mark(bytes: &[u8]) -> u32 {
    bytes.iter().fold(2_166_136_261, |mark: u32, byte| {
        mark.wrapping_mul(16_777_619).wrapping_add(u32::from(*byte))
    })
}
