//! Table T, and the table that serves in its place.

use std::cell::Cell;

/// Document 02: "a table of 1,025 numbers".
pub const ENTRIES: usize = 1_025;

/// The entries, unsigned.
pub type Table = [u64; ENTRIES];

/// Document 01: "Table T has 1,025 entries".
pub static TABLE: Table = build_table();

/// Document 01: "T[0] = 2^40, T[k+1] = T[k] × 48,769 / 49,537 rounded down."
const fn build_table() -> Table {
    let mut table = [1 << 40; ENTRIES];
    let mut k = 0;
    while k < 1024 {
        table[k + 1] = table[k] * 48_769 / 49_537;
        k += 1;
    }
    table
}

thread_local! {
    // egui's text calls exp of a number and of nothing else, so the table has to come from outside of it.
    static GIVEN: Cell<Option<&'static Table>> = const { Cell::new(None) };
}

/// The table that serves in the place of T, where one is given.
#[inline]
pub fn given() -> Option<&'static Table> {
    GIVEN.get()
}

/// Document 02: "used in the place of T", by the calls and nowhere else; T serves where none is given.
pub fn under<A>(table: impl Into<Option<&'static Table>>, calls: impl FnOnce() -> A) -> A {
    let before = GIVEN.replace(table.into());
    let answer = calls();
    GIVEN.set(before);
    answer
}
