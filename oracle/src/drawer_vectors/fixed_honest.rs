//! Drawers that nobody else writes.

use super::script::Script;
use super::states::{bit_set, with_words};
use super::{States, IDS};
use crate::clock::{Remembering, StateBytes};
use crate::frame_state::State;
use crate::frame_vectors::{stored, with_only};
use crate::random::Random;
use crate::records::FLAGS;
use crate::words::EDGES;

/// Three in every order.
pub const ORDERS: [[usize; 3]; 6] = [
    [0, 1, 2],
    [0, 2, 1],
    [1, 0, 2],
    [1, 2, 0],
    [2, 0, 1],
    [2, 1, 0],
];

/// A state with another velocity for each number.
pub fn numbered(number: usize) -> StateBytes {
    let vel = [number as f32, -0.0];
    record_of(State { vel, ..stored() })
}

fn record_of(egui: State) -> StateBytes {
    let mut record = [0; 156];
    let time = 12.5;
    Remembering { egui, time }.write(&mut record);
    record
}

/// Three ids of one chain, saved in every order and forgotten in every order; what is left is loaded in between.
pub fn every_order(script: &mut Script) {
    let ids = [16, 1 << 32, 1 << 63];
    for (number, saved) in ORDERS.iter().enumerate() {
        for forgotten in ORDERS {
            script.fresh(5);
            for place in saved {
                script.save(ids[*place], numbered(10 * number + place));
            }
            script.loads(&ids);
            for place in forgotten {
                script.forgets(&[ids[place]]);
            }
            script.loads(&ids[..1]);
        }
    }
}

/// As many ids as there is room for, and one more; each is saved once more, and forgotten records serve again.
pub fn every_id(script: &mut Script) {
    script.fresh(25);
    for (number, id) in IDS.iter().enumerate() {
        script.save(*id, numbered(number));
    }
    script.loads(&IDS);
    script.save(48, numbered(99));
    script.loads(&[48]);
    script.forgets(&[48]);
    for (number, id) in IDS.iter().enumerate().step_by(5) {
        script.save(*id, numbered(100 + number));
    }
    script.loads(&IDS);
    for part in IDS.chunks(6) {
        script.forgets(&[part[4], part[0], part[2]]);
        script.forgets(&[part[4]]);
        script.save(part[2] ^ 16 << 40, numbered(200));
        script.save(part[0], numbered(201));
    }
    script.loads(&IDS);
    script.forgets(&IDS);
    script.save(IDS[7], numbered(300));
    script.loads(&IDS[..8]);
}

/// Kept bit for bit but for what absent options hold.
pub fn every_state(script: &mut Script) {
    let mut states = vec![bit_set(), [0; 156], record_of(State::default())];
    states.extend((0..5).map(|option| record_of(with_only(option))));
    let random = &mut Random::new(1);
    states.extend((0..4).map(|_| with_words(random, |random| random.one_of(&EDGES))));
    states.extend((0..4).map(|_| with_words(random, Random::word)));
    let of_scenes = States::of_scenes(1);
    states.extend((0..16).map(|_| of_scenes.tidy(random)));
    script.fresh(3);
    for (number, state) in states.into_iter().enumerate() {
        let id = 7 + 16 * (number as u64 % 3);
        script.save(id, state);
        script.loads(&[id]);
        if number % 3 == 2 {
            // The third has no room yet.
            script.forgets(&[7]);
            script.save(id, state);
            script.loads(&[id, 7]);
            script.forgets(&[id]);
        }
    }
}

/// A flag outside its values is 6, and a refused save is no save.
pub fn refused_states(script: &mut Script) {
    script.fresh(3);
    script.save(3, numbered(1));
    for (flag, wrong) in FLAGS
        .into_iter()
        .zip([2, 0x0100, 0x0100_0001, 0x8000_0000].into_iter().cycle())
    {
        let mut state = numbered(2);
        state[4 * flag..][..4].copy_from_slice(&u32::to_le_bytes(wrong));
        // Of a known id and of a new one.
        let id = [3, 19][flag % 2];
        script.save(id, state);
        script.loads(&[id]);
    }
    script.save(19, numbered(4));
    script.save(35, [2; 156]);
    script.loads(&[3, 19, 35]);
}
