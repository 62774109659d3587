//! How often each branch was met, by threads.

use super::{Branch, BRANCHES};
use std::cell::Cell;

thread_local! {
    static COUNTS: [Cell<u64>; BRANCHES.len()] = const { [const { Cell::new(0) }; BRANCHES.len()] };
}

pub fn met(branch: Branch) {
    COUNTS.with(|counts| {
        let count = &counts[branch as usize];
        count.set(count.get() + 1);
    });
}

/// Counts the branch that is found, if any; those that are met on the way do not count.
pub fn met_by(find: impl FnOnce() -> Option<Branch>) {
    let before = COUNTS.with(Clone::clone);
    let found = find();
    COUNTS.with(|counts| {
        for (count, before) in counts.iter().zip(before) {
            count.set(before.get());
        }
    });
    found.into_iter().for_each(met);
}

/// How often a branch was met in this thread.
pub fn count_of(branch: Branch) -> u64 {
    COUNTS.with(|counts| counts[branch as usize].get())
}
