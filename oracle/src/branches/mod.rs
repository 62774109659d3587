//! How often each branch of `begin`, `end`, exp, a table's load, a run, the clock, a turn of the wheel, a bad word and a drawer is met; without
//! the feature `branches` nothing is counted.

#[cfg(feature = "branches")]
mod counts;
mod groups;
mod list;

#[cfg(feature = "branches")]
pub use counts::{count_of, met, met_by};
pub use groups::*;
pub use list::{Branch, BRANCHES};

#[cfg(not(feature = "branches"))]
#[inline(always)]
pub fn met(_: Branch) {}

#[cfg(not(feature = "branches"))]
#[inline(always)]
pub fn met_by(_: impl FnOnce() -> Option<Branch>) {}

/// The first branch where the test holds, else the second.
#[inline(always)]
pub fn met_either(test: bool, first: Branch, second: Branch) {
    met(if test { first } else { second });
}

/// The branch where the test holds.
#[inline(always)]
pub fn met_if(test: bool, branch: Branch) {
    if test {
        met(branch);
    }
}
