//! Document 02's K4, "A maker's own decay table": its bytes, its load, and the table that serves in the place of T.

mod bad;
mod good;

use crate::branches::{met, Branch};
use crate::numbers::TABLE;
use crate::random::Random;

pub use bad::{random_refused, refused, Refused};
pub use emath::table::{given, under, Table, ENTRIES};
pub use good::{good, random_good, Good};

/// Document 02: "each 64 bits", and "8,200 bytes".
pub const LENGTH: usize = 8 * ENTRIES;

/// Document 02: "each 64 bits, little-endian".
pub type TableBytes = [u8; LENGTH];

/// What the first entry has to be.
pub const FIRST: u64 = 1 << 40;

/// Document 02: "It refuses, as 10, a length other than 8,200 bytes, and next, as 11, a first entry other than 2^40 or an entry above the
/// one before it."
pub fn load(bytes: &[u8]) -> Result<Box<Table>, u32> {
    let Ok(bytes) = bytes.try_into() else {
        met(Branch::TableLength);
        return Err(10);
    };
    let table = entries(bytes);
    if table[0] != FIRST {
        met(Branch::TableFirst);
        return Err(11);
    }
    if table.windows(2).any(|pair| pair[0] < pair[1]) {
        met(Branch::TableOrder);
        return Err(11);
    }
    met(Branch::TableLoads);
    Ok(table)
}

fn entries(bytes: &TableBytes) -> Box<Table> {
    let mut table = Box::new([0; ENTRIES]);
    for (entry, part) in table.iter_mut().zip(bytes.chunks_exact(8)) {
        *entry = u64::from_le_bytes(part.try_into().expect("eight bytes"));
    }
    table
}

/// What bytes stand for that are lent although nobody loaded them: a number above 2^40 counts as 2^40 (docs/DECISIONS.md).
pub fn unloaded(bytes: &TableBytes) -> Box<Table> {
    Box::new(entries(bytes).map(|entry| entry.min(FIRST)))
}

/// A table in the bytes that a maker ships.
pub fn bytes_of(table: &Table) -> TableBytes {
    let mut bytes = [0; LENGTH];
    for (part, entry) in bytes.chunks_exact_mut(8).zip(table) {
        part.copy_from_slice(&entry.to_le_bytes());
    }
    bytes
}

/// T itself as a maker would ship it.
pub fn t_bytes() -> TableBytes {
    bytes_of(&TABLE)
}

/// Bytes to load: those of a table, none at all, or others that do not load.
pub fn random_load(random: &mut Random) -> Vec<u8> {
    match random.below(4) {
        0 => random_refused(random),
        1 => Vec::new(),
        _ => bytes_of(&random_good(random)).to_vec(),
    }
}

/// Document 02: "which nobody writes after loading"; it stays for as long as the program runs.
pub fn kept(table: Box<Table>) -> &'static Table {
    Box::leak(table)
}
