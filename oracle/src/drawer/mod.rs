//! Document 02's K7, "A drawer for the states of all lists": the four calls on its bytes.
//!
//! The chains are taken out as lists of records, a call works on the lists, and all links are written anew. Nothing here is shared with the
//! library but the document.

mod chains;
mod faults;
mod grounds;
mod held;
mod states;

use crate::branches::{met, met_if, Branch};
use crate::clock::StateBytes;

use chains::{id_of, put, Lists, FREE};

pub use faults::{faults, Fault};
pub use held::Held;
pub use states::{are_flags_good, tidied};

/// A record's words: the next index, the id, low word first, and the 39 words of a state.
pub const WORDS: usize = 42;

/// A record's bytes, which record 0 names.
pub const RECORD: usize = 4 * WORDS;

/// The most records of a drawer, record 0 among them.
pub const MOST_RECORDS: usize = 65_536;

/// The word of record 0 that names the record length.
pub const LENGTH_WORD: usize = FREE + 1;

/// The word of any other record at which its state begins.
pub const STATE_WORD: usize = 3;

/// "A call lays out a fresh drawer", of which it "reads only the buffer's length": 0 or 13.
pub fn lay(bytes: &mut [u8]) -> u32 {
    if let Some(fault) = faults::of_length(bytes.len()) {
        grounds::met_all(bytes, &[fault]);
        return 13;
    }
    let records = bytes.len() / RECORD;
    met_if(records == 1, Branch::LayOne);
    bytes.fill(0);
    put(bytes, 0, LENGTH_WORD, RECORD as u32);
    Lists::fresh(records).write(bytes);
    0
}

/// 0, or 6, 13 and 15 in this order, after which nothing has changed.
pub fn save(bytes: &mut [u8], id: u64, state: &StateBytes) -> u32 {
    if !are_flags_good(state) {
        met_before(bytes, id);
        return 6;
    }
    let Some(mut lists) = Lists::of(bytes) else {
        return 13;
    };
    let record = match lists.place(bytes, id) {
        Some(place) => {
            met(Branch::SaveAgain);
            met_if(lists.of_free().is_empty(), Branch::SaveAgainFull);
            lists.of_id(id)[place]
        }
        None if lists.of_free().is_empty() => {
            met(Branch::Save15);
            return 15;
        }
        None => lists.take(bytes, id),
    };
    put(bytes, record, 1, id as u32);
    put(bytes, record, 2, (id >> 32) as u32);
    met_if(tidied(state) != *state, Branch::SaveClears);
    state_mut(bytes, record).copy_from_slice(&tidied(state));
    lists.write(bytes);
    0
}

/// 0, or 13 and 14 in this order, after which the state has not changed.
pub fn load(bytes: &[u8], id: u64, state: &mut StateBytes) -> u32 {
    let Some(lists) = Lists::of(bytes) else {
        return 13;
    };
    let Some(place) = lists.place(bytes, id) else {
        met(Branch::Load14);
        return 14;
    };
    met(Branch::LoadFound);
    let kept = state_at(bytes, lists.of_id(id)[place]);
    met_if(tidied(&kept) != kept, Branch::LoadClears);
    *state = tidied(&kept);
    0
}

/// 0, or 13 and 14 in this order, after which nothing has changed.
pub fn forget(bytes: &mut [u8], id: u64) -> u32 {
    let Some(mut lists) = Lists::of(bytes) else {
        return 13;
    };
    let Some(place) = lists.place(bytes, id) else {
        met(Branch::Forget14);
        return 14;
    };
    let record = lists.give_back(id, place);
    bytes[record * RECORD..][..RECORD].fill(0);
    lists.write(bytes);
    0
}

/// The bytes of a record's state, whatever they are.
pub fn state_at(bytes: &[u8], record: usize) -> StateBytes {
    let place = record * RECORD + 4 * STATE_WORD;
    *bytes[place..].first_chunk().expect("a whole record")
}

fn state_mut(bytes: &mut [u8], record: usize) -> &mut StateBytes {
    let place = record * RECORD + 4 * STATE_WORD;
    bytes[place..].first_chunk_mut().expect("a whole record")
}

/// Counts a 6, and which number it goes before.
fn met_before(bytes: &[u8], id: u64) {
    met(Branch::Save6);
    let found = faults(bytes);
    met_if(!found.is_empty(), Branch::Save6Before13);
    if found.is_empty() {
        let lists = Lists::taken(bytes);
        let is_15 = lists.place(bytes, id).is_none() && lists.of_free().is_empty();
        met_if(is_15, Branch::Save6Before15);
    }
}

/// The records of a drawer that is none of 13 by their chains, the free ones last.
pub fn chains_of(bytes: &[u8]) -> Vec<Vec<usize>> {
    let lists = Lists::taken(bytes);
    (0..=FREE)
        .map(|chain| lists.of_head(chain).to_vec())
        .collect()
}

/// The ids of a drawer that is none of 13, by their chains.
pub fn ids_of(bytes: &[u8]) -> Vec<u64> {
    let chains = chains_of(bytes);
    let used = chains[..FREE].concat().into_iter();
    used.map(|record| id_of(bytes, record)).collect()
}
