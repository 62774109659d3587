//! On which grounds a drawer was refused as 13, for the counts.

use super::chains::{Chain, End, FREE};
use super::{Fault, RECORD};
use crate::branches::{met, met_if, Branch, BRANCHES};

impl Fault {
    pub fn in_words(self) -> &'static str {
        BRANCHES[branch(self) as usize].1
    }
}

/// Counts the grounds of a 13, and one that is alone.
pub fn met_all(bytes: &[u8], found: &[Fault]) {
    for fault in found {
        met(branch(*fault));
    }
    if let [fault] = found {
        alone(*fault).into_iter().for_each(met);
    }
    let is_of_chains = |fault: &Fault| matches!(fault, Fault::RunsOut | Fault::Circles);
    if found.iter().any(is_of_chains) {
        Chain::all(bytes)
            .iter()
            .enumerate()
            .for_each(|(number, chain)| met_end(bytes, number, chain));
    }
}

/// Counts where a chain runs out or circles.
fn met_end(bytes: &[u8], number: usize, chain: &Chain) {
    match chain.end {
        End::AtZero => {}
        End::Outside(index) => {
            met_if(number == FREE, Branch::FreeRunsOut);
            met_if(index == bytes.len() / RECORD, Branch::RunsOutByOne);
        }
        End::Again(record) => {
            met_if(number == FREE, Branch::FreeCircles);
            met_if(chain.records.last() == Some(&record), Branch::CircleOfOne);
        }
    }
}

fn branch(fault: Fault) -> Branch {
    match fault {
        Fault::Empty => Branch::DrawerEmpty,
        Fault::NotWhole => Branch::DrawerNotWhole,
        Fault::TooLarge => Branch::DrawerTooLarge,
        Fault::OtherLength => Branch::DrawerOtherLength,
        Fault::RunsOut => Branch::DrawerRunsOut,
        Fault::UsedMeet => Branch::DrawerUsedMeet,
        Fault::FreeMeets => Branch::DrawerFreeMeets,
        Fault::Circles => Branch::DrawerCircles,
        Fault::Misses => Branch::DrawerMisses,
        Fault::IdTwice => Branch::DrawerIdTwice,
        Fault::WrongHead => Branch::DrawerWrongHead,
        Fault::Flag => Branch::DrawerFlag,
    }
}

/// A length is always alone; used chains never meet but with an id under the wrong head.
fn alone(fault: Fault) -> Option<Branch> {
    match fault {
        Fault::Empty | Fault::NotWhole | Fault::TooLarge | Fault::UsedMeet => None,
        Fault::OtherLength => Some(Branch::OnlyOtherLength),
        Fault::RunsOut => Some(Branch::OnlyRunsOut),
        Fault::FreeMeets => Some(Branch::OnlyFreeMeets),
        Fault::Circles => Some(Branch::OnlyCircles),
        Fault::Misses => Some(Branch::OnlyMisses),
        Fault::IdTwice => Some(Branch::OnlyIdTwice),
        Fault::WrongHead => Some(Branch::OnlyWrongHead),
        Fault::Flag => Some(Branch::OnlyFlag),
    }
}
