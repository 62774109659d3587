//! A state's record, and the same with words that no state gives.

use crate::clock::{Remembering, StateBytes};
use crate::records::OPTIONS;
use crate::words::from_bytes;

/// The record of a state, with zeros for absent options.
pub fn record_of(state: &Remembering) -> StateBytes {
    let mut record = [0; 156];
    state.write(&mut record);
    record
}

/// With that word, numbered from 0.
pub fn with_word(mut record: StateBytes, word: usize, bits: u32) -> StateBytes {
    record[4 * word..][..4].copy_from_slice(&bits.to_le_bytes());
    record
}

/// With these bits for the remembered time, the low word first.
pub fn with_time(record: StateBytes, bits: u64) -> StateBytes {
    let record = with_word(record, 37, bits as u32);
    with_word(record, 38, (bits >> 32) as u32)
}

/// With such words behind the flags of absent options.
pub fn with_absent(record: StateBytes, mut word: impl FnMut() -> u32) -> StateBytes {
    let given = from_bytes(&record);
    let absent = OPTIONS.into_iter().filter(|(flag, _)| given[*flag] == 0);
    let places = absent.flat_map(|(flag, words)| flag + 1..=flag + words);
    places.fold(record, |record, place| with_word(record, place, word()))
}
