//! What was compared, what differed, and what was met.

use std::collections::BTreeMap;
use std::io::{self, Write};

use oracle::branches::{self, count_of, Branch, BRANCHES};

use crate::apart::Apart;
use crate::ends::OF_RUNS;
use crate::judge::IS_EGUI;

pub use crate::ends::End;
pub use crate::parts::Part;

/// Differences that are shown in full.
const SHOWN: u64 = 5;

/// Document 02's last refusal.
const LAST_REFUSAL: u32 = 18;

#[derive(Default)]
pub struct Tally {
    pub compared: u64,
    pub different: u64,
    /// Of each part, how often each end was met.
    ends: [BTreeMap<End, u64>; Part::ALL.len()],
    /// In which words frames and axis calls differed.
    pub apart: Apart,
}

impl Tally {
    /// Counts one comparison and how it ended; `what` names it, should the two differ.
    pub fn count(
        &mut self,
        part: Part,
        end: impl Into<End>,
        same: bool,
        what: impl Fn() -> String,
    ) {
        let end = end.into();
        assert!(end.number() <= LAST_REFUSAL, "{}: {end}", part.name());
        self.compared += 1;
        *self.ends[part as usize].entry(end).or_default() += 1;
        if !same {
            self.different += 1;
            if self.different <= SHOWN {
                println!("different: {}", what());
            }
        }
    }

    /// Shows how far a long run is.
    pub fn progress(&self, what: &str, done: u64, of: u64) {
        eprint!("\r{what}: {done} of {of}, {} different   ", self.different);
        io::stderr().flush().expect("progress is shown");
        if done >= of {
            eprintln!();
        }
    }

    pub fn print(&self) {
        for (part, ends) in Part::ALL.iter().zip(&self.ends) {
            let all: u64 = ends.values().sum();
            println!("{}: {all}", part.name());
            for (end, count) in ends {
                println!("  {count:>12} {end}");
            }
        }
        println!("branches, as the oracle met them");
        for (branch, words) in BRANCHES {
            println!("  {:>12} {words}", count_of(*branch));
        }
        let met = BRANCHES.iter().filter(|(branch, _)| count_of(*branch) > 0);
        println!("{} of {} branches met", met.count(), BRANCHES.len());
        self.apart.print();
    }

    /// How many were compared, and how many differed.
    pub fn counts(&self) -> String {
        format!("{} compared, {} different", self.compared, self.different)
    }

    /// Whether the runs ended in every way and on every ground there is; says which is missing.
    pub fn has_every_end_of_runs(&self) -> bool {
        let mut missing = Vec::new();
        let beside_the_rust = [Part::RunsTLent].iter().filter(|_| !IS_EGUI);
        for part in [Part::Runs, Part::RunsUnder].iter().chain(beside_the_rust) {
            let ends = &self.ends[*part as usize];
            let unmet = OF_RUNS.iter().filter(|end| !ends.contains_key(end));
            missing.extend(unmet.map(|end| format!("{}: {end}", part.name())));
        }
        missing.extend(unmet_of(branches::OF_RUNS));
        are_none(&missing)
    }
}

/// Whether each of 2 to 5 was kept first and to the end, and lowered by each below it; says which is missing.
pub fn has_every_branch_of_bad_words() -> bool {
    are_none(&unmet_of(branches::OF_BAD_WORDS))
}

/// Whether 12 was met in each order with the other numbers, and every kind of remembered time; says which is missing.
pub fn has_every_branch_of_clock() -> bool {
    are_none(&unmet_of(branches::OF_CLOCK))
}

/// Whether wheel calls were taken and left on every ground there is; says which is missing.
pub fn has_every_branch_of_wheel_calls() -> bool {
    are_none(&unmet_of(branches::OF_WHEEL_CALLS))
}

/// Whether turns in frames were taken and left on every ground there is; says which is missing.
pub fn has_every_branch_of_turns() -> bool {
    are_none(&unmet_of(branches::OF_TURNS))
}

/// Whether drawers were refused on every ground, and every way of a call was gone; says which is missing.
pub fn has_every_branch_of_drawers() -> bool {
    are_none(&unmet_of(branches::OF_DRAWERS))
}

/// Those of the branches that were not met, in words.
fn unmet_of(branches: &[(Branch, &str)]) -> Vec<String> {
    let unmet = branches.iter().filter(|named| count_of(named.0) == 0);
    unmet.map(|(_, words)| (*words).to_owned()).collect()
}

/// Whether nothing is missing; says what is.
fn are_none(missing: &[String]) -> bool {
    for name in missing {
        println!("not met: {name}");
    }
    missing.is_empty()
}
