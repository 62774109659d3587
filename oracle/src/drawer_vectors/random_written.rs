//! Pseudo-random lists on drawers that somebody else writes too.

use super::damages::any;
use super::ids::some;
use super::random::{any_call, of_scenes, some_records};
use super::script::Script;
use super::{Call, States};
use crate::drawer::{ids_of, lay, LENGTH_WORD, RECORD, STATE_WORD};
use crate::random::Random;

/// That many calls and words of others.
pub fn written_list(seed: u64, count: usize) -> Vec<Call> {
    of_scenes(seed, count, written_scene)
}

/// A drawer with states in it, then words of others and calls by turns.
pub fn written_scene(random: &mut Random, states: &States, script: &mut Script) {
    let records = some_records(random);
    let ids = some(random, records);
    if random.below(2) == 0 {
        script.fresh(records);
        for id in &ids {
            script.save(*id, states.tidy(random));
        }
        script.forgets(&ids[..random.below(ids.len().min(4))]);
    } else {
        script.call(Call::Given(arranged(random, states, records)));
    }
    for _ in 0..4 + random.below(8) {
        damaged_turn(random, states, script, &ids);
    }
}

/// One or two words of others and some calls on what they leave; then a 13 is mended, or an id that is there is loaded.
fn damaged_turn(random: &mut Random, states: &States, script: &mut Script, ids: &[u64]) {
    let mut damages = any(random, script.bytes(), ids);
    if random.below(3) == 0 {
        damages.extend(any(random, script.bytes(), ids));
    }
    let undoing = script.put(&damages);
    let calls = 1 + random.below(4);
    for _ in 0..calls {
        let call = any_call(random, states, ids);
        // A new layout would end the turn.
        if !matches!(call, Call::Lay) {
            script.call(call);
        }
    }
    if !script.is_good() {
        script.put(&undoing);
        return;
    }
    let held = ids_of(script.bytes());
    if !held.is_empty() {
        script.loads(&[held[random.below(held.len())]]);
    }
}

/// A drawer that no calls lead to: its records stand anywhere in its chains, which need not ascend.
fn arranged(random: &mut Random, states: &States, records: usize) -> Vec<u8> {
    let mut bytes = vec![0; records * RECORD];
    lay(&mut bytes);
    bytes[..4 * LENGTH_WORD].fill(0);
    let heads = 1 + random.below(17);
    let mut ids = Vec::new();
    for record in shuffled(random, records) {
        let chain = (random.below(heads) + 17 - heads) % 17;
        let mut bytes_of = vec![0; RECORD];
        bytes_of[..4].copy_from_slice(&bytes[4 * chain..][..4]);
        if chain < 16 {
            let id = new_id(random, &ids, chain as u64);
            ids.push(id);
            bytes_of[4..12].copy_from_slice(&id.to_le_bytes());
            bytes_of[4 * STATE_WORD..].copy_from_slice(&states.tidy(random));
        }
        bytes[record * RECORD..][..RECORD].copy_from_slice(&bytes_of);
        bytes[4 * chain..][..4].copy_from_slice(&(record as u32).to_le_bytes());
    }
    bytes
}

/// Of that chain, and none of those.
fn new_id(random: &mut Random, ids: &[u64], chain: u64) -> u64 {
    loop {
        let near = (random.below(64) as u64) << 4 | chain;
        let id = if random.below(2) == 0 {
            near
        } else {
            random.long() & !15 | chain
        };
        if !ids.contains(&id) {
            return id;
        }
    }
}

/// The records from 1 on, in any order.
fn shuffled(random: &mut Random, records: usize) -> Vec<usize> {
    let mut order: Vec<usize> = (1..records).collect();
    for place in (1..order.len()).rev() {
        order.swap(place, random.below(place + 1));
    }
    order
}
