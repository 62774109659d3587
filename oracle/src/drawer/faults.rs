//! The grounds on which a drawer is refused as 13.

use std::collections::HashSet;

use super::chains::{head_of, id_of, word, Chain, End, FREE};
use super::{are_flags_good, state_at, LENGTH_WORD, MOST_RECORDS, RECORD};

/// A ground of 13, in the document's order.
#[derive(Clone, Copy, Debug, PartialEq, Eq, PartialOrd, Ord)]
pub enum Fault {
    Empty,
    NotWhole,
    TooLarge,
    OtherLength,
    RunsOut,
    UsedMeet,
    FreeMeets,
    Circles,
    Misses,
    IdTwice,
    WrongHead,
    Flag,
}

/// The grounds of a buffer that has the length of a drawer.
const OF_RECORDS: [Fault; 9] = [
    Fault::OtherLength,
    Fault::RunsOut,
    Fault::UsedMeet,
    Fault::FreeMeets,
    Fault::Circles,
    Fault::Misses,
    Fault::IdTwice,
    Fault::WrongHead,
    Fault::Flag,
];

/// All grounds on which the buffer is refused; none where it is a drawer.
pub fn faults(bytes: &[u8]) -> Vec<Fault> {
    if let Some(fault) = of_length(bytes.len()) {
        return vec![fault];
    }
    let written = Written::of(bytes);
    let applies = |fault: &Fault| written.has(*fault);
    OF_RECORDS.into_iter().filter(applies).collect()
}

/// "a buffer that is not a whole number of records from 1 to 65,536"
pub fn of_length(length: usize) -> Option<Fault> {
    match (length / RECORD, length % RECORD) {
        (0, 0) => Some(Fault::Empty),
        (records, 0) if records > MOST_RECORDS => Some(Fault::TooLarge),
        (_, 0) => None,
        _ => Some(Fault::NotWhole),
    }
}

/// The records of a buffer, and how its chains go over them.
struct Written<'a> {
    bytes: &'a [u8],
    chains: Vec<Chain>,
    /// Of each record, a bit for each chain that has it.
    under: Vec<u32>,
}

impl Written<'_> {
    fn of(bytes: &[u8]) -> Written<'_> {
        let chains = Chain::all(bytes);
        let mut under = vec![0; bytes.len() / RECORD];
        for (number, chain) in chains.iter().enumerate() {
            for record in &chain.records {
                under[*record] |= 1 << number;
            }
        }
        Written {
            bytes,
            chains,
            under,
        }
    }

    fn has(&self, fault: Fault) -> bool {
        match fault {
            Fault::Empty | Fault::NotWhole | Fault::TooLarge => false,
            Fault::OtherLength => word(self.bytes, 0, LENGTH_WORD) as usize != RECORD,
            Fault::RunsOut => self.ends(|end| matches!(end, End::Outside(_))),
            Fault::UsedMeet => self.under.iter().any(|bits| used(*bits).count_ones() > 1),
            Fault::FreeMeets => self
                .under
                .iter()
                .any(|bits| used(*bits) != 0 && used(*bits) != *bits),
            Fault::Circles => self.ends(|end| matches!(end, End::Again(_))),
            Fault::Misses => self.under.iter().skip(1).any(|bits| *bits == 0),
            Fault::IdTwice => self.has_id_twice(),
            Fault::WrongHead => self.has_id_under_wrong_head(),
            Fault::Flag => self
                .used_records()
                .any(|record| !are_flags_good(&state_at(self.bytes, record))),
        }
    }

    fn ends(&self, is_so: fn(End) -> bool) -> bool {
        self.chains.iter().any(|chain| is_so(chain.end))
    }

    /// Each once.
    fn used_records(&self) -> impl Iterator<Item = usize> + '_ {
        let all = self.under.iter().enumerate();
        all.filter(|(_, bits)| used(**bits) != 0)
            .map(|(record, _)| record)
    }

    fn has_id_twice(&self) -> bool {
        let mut ids = HashSet::new();
        self.used_records()
            .any(|record| !ids.insert(id_of(self.bytes, record)))
    }

    fn has_id_under_wrong_head(&self) -> bool {
        let is_wrong = |(head, chain): (usize, &Chain)| {
            let mut records = chain.records.iter();
            records.any(|record| head_of(id_of(self.bytes, *record)) != head)
        };
        self.chains[..FREE].iter().enumerate().any(is_wrong)
    }
}

/// The bits of the used chains.
fn used(bits: u32) -> u32 {
    bits & !(1 << FREE)
}
