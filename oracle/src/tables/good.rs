//! Tables that load.

use super::{Table, ENTRIES, FIRST};
use crate::numbers::TABLE;
use crate::random::Random;

/// A table that loads, and what it is.
pub struct Good {
    pub name: &'static str,
    pub table: Box<Table>,
}

/// One of each kind.
pub fn good(seed: u64) -> Vec<Good> {
    let random = &mut Random::new(seed);
    let tables = [
        ("T", Box::new(TABLE)),
        ("zero after the first", made(|_, _| 0)),
        ("constant", made(|_, before| before)),
        ("zero at the last alone", dropped(ENTRIES - 1, 0)),
        ("half", geometric(1, 2)),
        ("steeper than T", geometric(60_000, 65_536)),
        ("slower than T", geometric(65_530, 65_536)),
        // The whole part of an entry over 65,536 stays one below that of the first.
        ("one less each", made(|_, before| before - 1)),
        ("equal runs", equal_runs(random)),
        ("random", uniform(random)),
        ("random sizes", sized(random)),
        ("T and zeros", cut(random)),
    ];
    tables.map(|(name, table)| Good { name, table }).into()
}

/// One of any kind.
pub fn random_good(random: &mut Random) -> Box<Table> {
    match random.below(12) {
        0 => dropped(1 + random.below(ENTRIES - 1), random.long() % FIRST),
        1 | 2 => geometric(random.below(65_537) as u64, 65_536),
        3 | 4 => geometric(65_536 - random.below(2_000) as u64, 65_536),
        5 | 6 => equal_runs(random),
        7 | 8 => uniform(random),
        9 => sized(random),
        10 => cut(random),
        _ => {
            let known = good(random.long());
            let place = random.below(known.len());
            known[place].table.clone()
        }
    }
}

/// Each entry after the first by its number and the one before it.
fn made(mut next: impl FnMut(usize, u64) -> u64) -> Box<Table> {
    let mut table = Box::new([FIRST; ENTRIES]);
    for k in 1..ENTRIES {
        table[k] = next(k, table[k - 1]);
    }
    table
}

/// The first entry's number up to that entry, and from there on the other.
fn dropped(at: usize, to: u64) -> Box<Table> {
    made(|k, before| if k < at { before } else { to })
}

fn geometric(numerator: u64, denominator: u64) -> Box<Table> {
    made(|_, before| before * numerator / denominator)
}

/// Some twenty runs of equal entries, each below the one before.
fn equal_runs(random: &mut Random) -> Box<Table> {
    made(|_, before| match random.below(50) {
        0 => (before as f64 * random.unit()) as u64,
        _ => before,
    })
}

/// Numbers that are as likely to be any up to 2^40, the largest first.
fn uniform(random: &mut Random) -> Box<Table> {
    descending(|| random.long() % (FIRST + 1))
}

/// Numbers whose size is as likely to be any, the largest first; about one in forty is 0.
fn sized(random: &mut Random) -> Box<Table> {
    descending(|| (random.long() >> 24) >> random.below(41))
}

fn descending(mut entry: impl FnMut() -> u64) -> Box<Table> {
    let mut table = Box::new([FIRST; ENTRIES]);
    table[1..].fill_with(&mut entry);
    table[1..].sort_unstable_by(|a, b| b.cmp(a));
    table
}

/// T up to some entry, and zeros.
fn cut(random: &mut Random) -> Box<Table> {
    let at = 1 + random.below(ENTRIES - 1);
    made(|k, _| if k < at { TABLE[k] } else { 0 })
}
