//! emath's numbers, with exp as the port calls it: by a method that counts the branches that it meets.

pub use emath::numbers::*;

use crate::branches::{met, met_if, Branch};
use crate::tables::given;

/// exp under a name that f32 does not have itself.
pub trait Stated {
    fn stated_exp(self) -> f32;
}

impl Stated for f32 {
    /// emath's exp by the table that is given, and by T where none is; each call counts once.
    // Out of line, so that the look for a table does not change the code around it, whose cost bench/ counts.
    #[inline(never)]
    fn stated_exp(self) -> f32 {
        met(branch_of_exp(self));
        met_if(given().is_some(), branch_of_given(self));
        exp_by_given(self)
    }
}

/// Document 02: "repeated until the half is -16 or more", by the argument: once from -32 on, twice from -64 on, thrice from -80 on.
fn branch_of_exp(x: f32) -> Branch {
    if x < -80.0 {
        Branch::ExpBelow
    } else if x < -64.0 {
        Branch::ExpByThreeHalvings
    } else if x < -32.0 {
        Branch::ExpByTwoHalvings
    } else if x < -16.0 {
        Branch::ExpByOneHalving
    } else {
        Branch::ExpByTable
    }
}

/// Under a table that is given: whether an entry is read by itself, for squares, or not at all.
fn branch_of_given(x: f32) -> Branch {
    match branch_of_exp(x) {
        Branch::ExpBelow => Branch::GivenBelow,
        Branch::ExpByTable => Branch::GivenEntry,
        _ => Branch::GivenSquared,
    }
}
