//! Words that somebody else writes in a drawer: such as 13 names, and such as it does not.

use super::script::Damage;
use crate::drawer::{chains_of, state_at, LENGTH_WORD, RECORD, STATE_WORD, WORDS};
use crate::random::Random;
use crate::records::{FLAGS, OPTIONS};
use crate::words::EDGES;

/// What no flag may be.
const WRONG: [u32; 5] = [2, 3, 0x0100, 0x0100_0001, 0x8000_0000];

/// A word of a record.
pub fn word(record: usize, word: usize, bits: u32) -> Damage {
    (record * RECORD + 4 * word, bits.to_le_bytes())
}

/// The head of a chain, 16 for the free one.
pub fn head(chain: usize, record: usize) -> Damage {
    word(0, chain, record as u32)
}

pub fn next(record: usize, next: usize) -> Damage {
    word(record, 0, next as u32)
}

/// A word of a record's state.
pub fn of_state(record: usize, place: usize, bits: u32) -> Damage {
    word(record, STATE_WORD + place, bits)
}

/// One of the records that a list names, else any.
fn one(random: &mut Random, records: &[usize], count: usize) -> usize {
    match records {
        [] => random.below(count),
        _ => records[random.below(records.len())],
    }
}

/// One that may be among those of 13, or none of them; the buffer is a drawer.
pub fn any(random: &mut Random, bytes: &[u8], ids: &[u64]) -> Vec<Damage> {
    let count = bytes.len() / RECORD;
    let lists = chains_of(bytes);
    let (free, heads) = lists.split_last().expect("17 chains");
    let used = one(random, &heads.concat(), count);
    match random.below(17) {
        0..=4 => vec![link(random, count)],
        5 => vec![word(0, LENGTH_WORD, random.one_of(&LENGTHS))],
        6 | 7 => vec![id_half(random, used, ids)],
        8 => vec![flag(random, used)],
        9 => vec![word(0, LENGTH_WORD + 1 + random.below(24), random.word())],
        10 => vec![word(
            one(random, free, count),
            1 + random.below(WORDS - 1),
            random.word(),
        )],
        11 => absent(random, bytes, used),
        12 => vec![of_state(used, random.below(39), random.one_of(&EDGES))],
        13 | 14 => turned(random, heads),
        15 => twice(random, bytes, heads),
        _ => vec![anywhere(random, bytes.len())],
    }
}

/// Lengths that are no record's.
const LENGTHS: [u32; 8] = [0, 1, 42, 156, 167, 169, 336, 0x0100_00a8];

/// A head or a next index: mostly a record's own, so that chains often almost work.
fn link(random: &mut Random, count: usize) -> Damage {
    let place = random.below(17 + count - 1);
    let index = match random.below(12) {
        0 => count as u32,
        1 => count as u32 + 1 + random.below(3) as u32,
        2 => random.one_of(&[u32::MAX, 0x8000_0001, 0x0001_0001, 0x0001_0000, 0x0600_0000]),
        3 | 4 => 0,
        _ => random.below(count) as u32,
    };
    match place {
        0..=16 => word(0, place, index),
        _ => word(place - 16, 0, index),
    }
}

/// A half of an id: another's, or near its own.
fn id_half(random: &mut Random, record: usize, ids: &[u64]) -> Damage {
    let other = ids[random.below(ids.len())];
    match random.below(4) {
        0 => word(record, 2, (other >> 32) as u32),
        1 => word(record, 1, random.below(33) as u32),
        _ => word(record, 1, other as u32),
    }
}

fn flag(random: &mut Random, record: usize) -> Damage {
    let flag = FLAGS[random.below(FLAGS.len())];
    of_state(record, flag, random.one_of(&WRONG))
}

/// A word of an absent option, where one is.
fn absent(random: &mut Random, bytes: &[u8], record: usize) -> Vec<Damage> {
    let state = state_at(bytes, record);
    let is_absent = |option: &&(usize, usize)| state[4 * option.0..][..4] == [0; 4];
    let options: Vec<&(usize, usize)> = OPTIONS.iter().filter(is_absent).collect();
    let Some(&&(flag, words)) = options.get(random.below(5)) else {
        return Vec::new();
    };
    vec![of_state(
        record,
        flag + 1 + random.below(words),
        random.word(),
    )]
}

/// A chain with two records or more, where one has.
fn long(random: &mut Random, heads: &[Vec<usize>]) -> Option<usize> {
    let long: Vec<usize> = (0..16).filter(|head| heads[*head].len() > 1).collect();
    (!long.is_empty()).then(|| long[random.below(long.len())])
}

/// Two neighbours of a chain in the other order, where one has two.
fn turned(random: &mut Random, heads: &[Vec<usize>]) -> Vec<Damage> {
    let Some(chain) = long(random, heads) else {
        return Vec::new();
    };
    turned_at(chain, &heads[chain], random.below(heads[chain].len() - 1))
}

/// Both halves of another's id, which may be its own, in the same chain.
fn twice(random: &mut Random, bytes: &[u8], heads: &[Vec<usize>]) -> Vec<Damage> {
    let Some(chain) = long(random, heads) else {
        return Vec::new();
    };
    let [from, to] = [0, 1].map(|_| one(random, &heads[chain], 0));
    let half = |half: usize| {
        let place = from * RECORD + 4 * half;
        let bits = bytes[place..].first_chunk().expect("a word");
        word(to, half, u32::from_le_bytes(*bits))
    };
    vec![half(1), half(2)]
}

/// The record at that place of a chain and the one behind it in the other order.
pub fn turned_at(chain: usize, list: &[usize], place: usize) -> Vec<Damage> {
    let (first, second) = (list[place], list[place + 1]);
    let behind = list.get(place + 2).copied().unwrap_or(0);
    let ahead = match place {
        0 => head(chain, second),
        _ => next(list[place - 1], second),
    };
    vec![ahead, next(second, first), next(first, behind)]
}

/// Any four bytes, which need not be one word.
fn anywhere(random: &mut Random, length: usize) -> Damage {
    (random.below(length - 3), random.word().to_le_bytes())
}
