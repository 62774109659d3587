//! One drawer, damaged in each way that 13 names, by one word and by two.

use super::damages::{head, next, of_state, word};
use super::fixed_honest::numbered;
use super::script::{Damage, Script};
use super::Call;
use crate::drawer::{LENGTH_WORD, RECORD};
use crate::records::FLAGS;

/// Records 1 and 2 in chain 0, 3 in chain 1, and 4 free.
fn lay_out(script: &mut Script) {
    script.fresh(5);
    for id in [0, 16, 1] {
        script.save(id, numbered(id as usize));
    }
}

/// The ids that are there and some that are not.
const IDS: [u64; 6] = [0, 16, 1, 32, 17, 2];

/// The damage, a call on it by turns, and what undoes it.
fn shown(script: &mut Script, number: usize, damages: &[Damage]) {
    let undoing = script.put(damages);
    let id = IDS[number / 3 % IDS.len()];
    script.loads(&[id]);
    // On a drawer that is none of 13 they would change what follows.
    if !script.is_good() {
        match number % 4 {
            0 => script.save(id, numbered(50)),
            _ => script.forgets(&[id]),
        }
    }
    script.put(&undoing);
}

/// Every head and next index with every index of a record, of the one behind the drawer, and others.
pub fn damaged_links(script: &mut Script) {
    lay_out(script);
    let heads = (0..17).map(|chain| head(chain, 0).0);
    let nexts = (1..5).map(|record| next(record, 0).0);
    let places: Vec<usize> = heads.chain(nexts).collect();
    let mut number = 0;
    for place in places {
        // Two of the heads that are empty stand for all.
        let is_empty = (2..16).contains(&(place / 4)) && place < RECORD;
        if is_empty && ![2 * 4, 15 * 4].contains(&place) {
            continue;
        }
        for index in [0, 1, 2, 3, 4, 5, 6, 0x0001_0001, u32::MAX] {
            shown(script, number, &[(place, index.to_le_bytes())]);
            number += 1;
        }
    }
}

/// The record length, ids and flags.
pub fn damaged_fields(script: &mut Script) {
    lay_out(script);
    let mut damages: Vec<Damage> = Vec::new();
    for length in [0, 42, 167, 169, 336, 0x0100_00a8] {
        damages.push(word(0, LENGTH_WORD, length));
    }
    for low in [0, 1, 2, 16, 17, 32, 0x1000_0000] {
        damages.extend([1, 2, 3].map(|record| word(record, 1, low)));
    }
    damages.extend([1, 16].map(|high| word(3, 2, high)));
    let wrong = [2, 0x0100, 0x0100_0001, 0x8000_0000].into_iter().cycle();
    for (flag, bits) in FLAGS.into_iter().zip(wrong) {
        damages.push(of_state(1 + flag % 3, flag, bits));
    }
    for (number, damage) in damages.into_iter().enumerate() {
        shown(script, number, &[damage]);
    }
    // 6 goes ahead of every ground.
    let undoing = script.put(&[word(0, LENGTH_WORD, 0)]);
    script.save(0, [2; 156]);
    script.put(&undoing);
}

/// One damage of each ground; used chains meet, and the free one with one of them.
const GROUNDS: usize = 9;

fn of_ground(number: usize) -> Vec<Damage> {
    match number {
        0 => vec![word(0, LENGTH_WORD, 160)],
        1 => vec![next(3, 5)],
        2 => vec![head(1, 2)],
        3 => vec![next(4, 3)],
        4 => vec![next(2, 1)],
        5 => vec![head(16, 0)],
        6 => vec![word(2, 1, 0)],
        7 => vec![word(3, 1, 18)],
        _ => vec![of_state(3, 36, 2)],
    }
}

/// Two grounds at a time, with every call; then a layout, which asks for none of them.
pub fn two_damages(script: &mut Script) {
    lay_out(script);
    for first in 0..GROUNDS {
        for second in 0..first {
            let damages = [of_ground(first), of_ground(second)].concat();
            let undoing = script.put(&damages);
            script.loads(&[1]);
            script.forgets(&[16]);
            script.put(&undoing);
        }
    }
    for ground in 0..GROUNDS {
        lay_out(script);
        script.put(&of_ground(ground));
        script.all([Call::Load(1), Call::Lay, Call::Load(1)]);
    }
}
