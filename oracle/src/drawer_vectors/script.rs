//! A list that is being written: what the calls so far lead to is known.

use super::answers::Kept;
use super::Call;
use crate::clock::StateBytes;
use crate::drawer::{faults, RECORD};

/// Four bytes and their place.
pub type Damage = (usize, [u8; 4]);

pub struct Script {
    pub calls: Vec<Call>,
    kept: Kept,
}

impl Script {
    pub fn new() -> Script {
        Script {
            calls: Vec::new(),
            kept: Kept::none(),
        }
    }

    /// The buffer as the calls so far left it.
    pub fn bytes(&self) -> &[u8] {
        &self.kept.bytes
    }

    /// Whether the buffer is a drawer now.
    pub fn is_good(&self) -> bool {
        faults(self.bytes()).is_empty()
    }

    pub fn call(&mut self, call: Call) {
        self.kept.call(&call);
        self.calls.push(call);
    }

    pub fn all(&mut self, calls: impl IntoIterator<Item = Call>) {
        calls.into_iter().for_each(|call| self.call(call));
    }

    /// A fresh drawer of that many records, on bytes that are none.
    pub fn fresh(&mut self, records: usize) {
        if self.bytes().len() != records * RECORD {
            self.call(Call::Given(vec![0xee; records * RECORD]));
        }
        self.call(Call::Lay);
    }

    pub fn save(&mut self, id: u64, state: StateBytes) {
        self.call(Call::Save(id, Box::new(state)));
    }

    pub fn loads(&mut self, ids: &[u64]) {
        self.all(ids.iter().map(|id| Call::Load(*id)));
    }

    pub fn forgets(&mut self, ids: &[u64]) {
        self.all(ids.iter().map(|id| Call::Forget(*id)));
    }

    /// Puts them, and says what undoes it, the last first.
    pub fn put(&mut self, damages: &[Damage]) -> Vec<Damage> {
        let mut undoing = Vec::new();
        for (place, word) in damages {
            let before = *self.bytes()[*place..].first_chunk().expect("a word");
            undoing.insert(0, (*place, before));
            self.call(Call::Put(*place, *word));
        }
        undoing
    }
}
