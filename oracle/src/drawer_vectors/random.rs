//! Pseudo-random lists on drawers that nobody else writes, and those with others among them.

use super::ids::some;
use super::random_written::written_scene;
use super::script::Script;
use super::{Call, States};
use crate::drawer::RECORD;
use crate::random::Random;

/// The numbers of records of the drawers.
const RECORDS: [usize; 10] = [1, 2, 3, 3, 5, 5, 5, 17, 17, 25];

/// Lengths that are no drawer's.
const LENGTHS: [usize; 7] = [0, 1, 4, 167, 169, 335, 337];

/// That many pseudo-random calls, on drawers of both kinds.
pub fn random_list(seed: u64, count: usize) -> Vec<Call> {
    of_scenes(seed, count, |random, states, script| {
        if random.below(2) == 0 {
            honest_scene(random, states, script);
        } else {
            written_scene(random, states, script);
        }
    })
}

/// That many, on drawers that nobody else writes, and at times on buffers of another length.
pub fn honest_list(seed: u64, count: usize) -> Vec<Call> {
    of_scenes(seed, count, honest_scene)
}

/// That many calls of such scenes.
pub fn of_scenes(
    seed: u64,
    count: usize,
    scene: fn(&mut Random, &States, &mut Script),
) -> Vec<Call> {
    let random = &mut Random::new(seed);
    let states = States::of_scenes(random.long());
    let mut script = Script::new();
    while script.calls.len() < count {
        scene(random, &states, &mut script);
    }
    script.calls.truncate(count);
    script.calls
}

pub fn some_records(random: &mut Random) -> usize {
    RECORDS[random.below(RECORDS.len())]
}

/// A drawer laid out on any bytes, and calls on it.
fn honest_scene(random: &mut Random, states: &States, script: &mut Script) {
    let (length, calls) = match random.below(12) {
        0 => (LENGTHS[random.below(LENGTHS.len())], 8),
        _ => (RECORD * some_records(random), 4 + random.below(100)),
    };
    let mut bytes = vec![0; length];
    bytes.fill_with(|| random.word() as u8);
    script.all([Call::Given(bytes), Call::Lay]);
    let ids = some(random, length / RECORD);
    for _ in 0..calls {
        script.call(any_call(random, states, &ids));
    }
}

/// A save more often than a forget, so that drawers fill; seldom a new layout.
pub fn any_call(random: &mut Random, states: &States, ids: &[u64]) -> Call {
    let id = ids[random.below(ids.len())];
    match random.below(64) {
        0 => Call::Lay,
        1..=28 => Call::Save(id, Box::new(states.any(random))),
        29..=46 => Call::Load(id),
        _ => Call::Forget(id),
    }
}
