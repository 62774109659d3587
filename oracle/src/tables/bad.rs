//! Bytes that do not load, and which number they get.

use super::{bytes_of, random_good, t_bytes, Table, ENTRIES, FIRST, LENGTH};
use crate::numbers::TABLE;
use crate::random::Random;

/// Bytes that do not load, why, and the number that document 02 gives them.
pub struct Refused {
    pub why: String,
    pub bytes: Vec<u8>,
    pub number: u32,
}

/// Each reason, at the first, a middle and the last entry.
pub fn refused() -> Vec<Refused> {
    let mut list = wrong_lengths();
    list.extend(wrong_lengths_and_entries());
    list.extend(wrong_first_entries());
    list.extend(entries_above_the_one_before());
    list
}

fn of_length(length: usize) -> Vec<u8> {
    let mut bytes = t_bytes().to_vec();
    bytes.resize(length, 0);
    bytes
}

/// T cut short or with zeros behind it: less and more by a byte and by an entry, and hardly anything.
fn wrong_lengths() -> Vec<Refused> {
    let lengths = [0, 1, 8, 8_192, 8_199, 8_201, 8_208];
    let by_length = |length| Refused {
        why: format!("{length} bytes"),
        bytes: of_length(length),
        number: 10,
    };
    lengths.map(by_length).into()
}

/// 10 goes before 11.
fn wrong_lengths_and_entries() -> Vec<Refused> {
    let with_first = |length: usize, first: u64| {
        let mut bytes = of_length(length);
        bytes[..8].copy_from_slice(&first.to_le_bytes());
        Refused {
            why: format!("{length} bytes, first entry {first}"),
            bytes,
            number: 10,
        }
    };
    vec![
        with_first(8, 0),
        with_first(8_199, FIRST - 1),
        with_first(8_208, FIRST + 1),
    ]
}

fn as_11(why: String, table: &Table) -> Refused {
    Refused {
        why,
        bytes: bytes_of(table).to_vec(),
        number: 11,
    }
}

/// The first entry alone is at fault; also T's bytes in the other order.
fn wrong_first_entries() -> Vec<Refused> {
    let mut zeros = [0; ENTRIES];
    let mut list = vec![as_11("first entry 0".to_owned(), &zeros)];
    zeros[0] = FIRST >> 1;
    list.push(as_11("first entry 2^39".to_owned(), &zeros));
    for first in [FIRST - 1, FIRST + 1, u64::MAX] {
        let mut table = TABLE;
        table[0] = first;
        list.push(as_11(format!("first entry {first}"), &table));
    }
    let swapped = TABLE.map(u64::swap_bytes);
    list.push(as_11("the highest byte first".to_owned(), &swapped));
    list
}

/// One entry alone is at fault: by one, or as far as 64 bits go, which a signed reading would take for a number below 0.
fn entries_above_the_one_before() -> Vec<Refused> {
    let middle = ENTRIES / 2;
    let above = |k: usize, entry: u64| {
        let mut table = TABLE;
        table[k] = entry;
        as_11(format!("entry {k} is {entry}"), &table)
    };
    let last = ENTRIES - 1;
    vec![
        above(1, FIRST + 1),
        above(middle, TABLE[middle - 1] + 1),
        above(last, TABLE[last - 1] + 1),
        above(middle, u64::MAX),
        above(last, 1 << 63),
    ]
}

/// Some table that loads, with another length, another first entry or an entry above the one before it; at times two of these.
pub fn random_refused(random: &mut Random) -> Vec<u8> {
    let mut table = random_good(random);
    let why = random.below(8);
    if why != 0 {
        spoil(random, &mut table);
    }
    let mut bytes = bytes_of(&table).to_vec();
    if why < 2 {
        let near = LENGTH - 8 + random.below(17);
        let length = [near, random.below(LENGTH + 9)][random.below(2)];
        bytes.resize(if length == LENGTH { 0 } else { length }, 0);
    }
    bytes
}

fn spoil(random: &mut Random, table: &mut Table) {
    let k = [1, ENTRIES - 1, 1 + random.below(ENTRIES - 1)][random.below(3)];
    match random.below(4) {
        0 => table[0] = [FIRST - 1, FIRST + 1, random.long()][random.below(3)],
        1 | 2 => table[k] = table[k - 1] + 1,
        // A bit above that of 2^40, up to the sign's in a signed reading.
        _ => table[k] = random.long() | 1 << (41 + random.below(23)),
    }
}
