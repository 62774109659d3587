//! A state's record as a drawer takes it and gives it out.

use crate::clock::StateBytes;
use crate::records::{FLAGS, OPTIONS};

fn word(state: &StateBytes, word: usize) -> u32 {
    u32::from_le_bytes(*state[4 * word..].first_chunk().expect("a word"))
}

/// Whether each flag is 0 or 1.
pub fn are_flags_good(state: &StateBytes) -> bool {
    FLAGS.iter().all(|flag| word(state, *flag) <= 1)
}

/// "absent options as zeros"; everything else bit for bit.
pub fn tidied(state: &StateBytes) -> StateBytes {
    let mut tidy = *state;
    for (flag, words) in OPTIONS {
        if word(state, flag) == 0 {
            tidy[4 * (flag + 1)..][..4 * words].fill(0);
        }
    }
    tidy
}
