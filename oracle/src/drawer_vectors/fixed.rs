//! The fixed list.

use super::fixed_damages::{damaged_fields, damaged_links, two_damages};
use super::fixed_honest::{every_id, every_order, every_state, refused_states};
use super::fixed_lengths::{lengths, one_record};
use super::fixed_written::{littered, turned_chains};
use super::random::{honest_list, random_list};
use super::script::Script;
use super::{Call, STORED};

/// What random lists may add: bytes, and calls of each.
const MOST_BYTES: usize = 280_000;
const PART: usize = 230;

/// Scenes of every kind, and some of the random ones.
pub fn fixed_list() -> Vec<Call> {
    let mut script = Script::new();
    let scenes = [
        lengths,
        one_record,
        every_order,
        every_id,
        every_state,
        refused_states,
        damaged_links,
        damaged_fields,
        two_damages,
        littered,
        turned_chains,
    ];
    for scene in scenes {
        scene(&mut script);
    }
    let mut list = script.calls;
    let mut size = size_of(&list);
    for seed in 1.. {
        let make = [random_list, honest_list][seed as usize % 2];
        let part = make(seed, PART);
        size += size_of(&part);
        if size > MOST_BYTES {
            break;
        }
        list.extend(part);
    }
    assert!(list.iter().all(can_be_stored));
    list
}

fn size_of(list: &[Call]) -> usize {
    list.iter().map(|call| call.input_record().len()).sum()
}

/// A longer buffer could not be stored.
fn can_be_stored(call: &Call) -> bool {
    !matches!(call, Call::Given(bytes) if bytes.len() > STORED)
}
