//! What a drawer that nobody else writes holds, without its bytes: "a load gives the last state saved under that id since its last forgetting".

use std::collections::BTreeMap;

use super::{are_flags_good, tidied};
use crate::clock::StateBytes;

/// The states by id, and how many there may be.
#[derive(Clone, Debug)]
pub struct Held {
    states: BTreeMap<u64, StateBytes>,
    room: usize,
}

impl Held {
    /// Of a fresh drawer with that many records, of which the first holds no state.
    pub fn fresh(records: usize) -> Held {
        Held {
            states: BTreeMap::new(),
            room: records - 1,
        }
    }

    pub fn save(&mut self, id: u64, state: &StateBytes) -> u32 {
        if !are_flags_good(state) {
            return 6;
        }
        if !self.states.contains_key(&id) && self.states.len() == self.room {
            return 15;
        }
        self.states.insert(id, tidied(state));
        0
    }

    pub fn load(&self, id: u64, state: &mut StateBytes) -> u32 {
        match self.states.get(&id) {
            None => 14,
            Some(kept) => {
                *state = *kept;
                0
            }
        }
    }

    pub fn forget(&mut self, id: u64) -> u32 {
        match self.states.remove(&id) {
            None => 14,
            Some(_) => 0,
        }
    }
}
