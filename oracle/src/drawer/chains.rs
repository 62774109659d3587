//! The chains of a drawer: as they are written, and as lists.

use super::faults::faults;
use super::grounds::met_all;
use super::RECORD;
use crate::branches::{met, met_if, Branch};

/// The chains of used records.
pub const HEADS: usize = 16;

/// The number of the free chain, whose head follows on theirs.
pub const FREE: usize = HEADS;

pub fn word(bytes: &[u8], record: usize, word: usize) -> u32 {
    let place = record * RECORD + 4 * word;
    u32::from_le_bytes(*bytes[place..].first_chunk().expect("a word"))
}

pub fn put(bytes: &mut [u8], record: usize, word: usize, bits: u32) {
    let place = record * RECORD + 4 * word;
    bytes[place..place + 4].copy_from_slice(&bits.to_le_bytes());
}

pub fn id_of(bytes: &[u8], record: usize) -> u64 {
    u64::from(word(bytes, record, 2)) << 32 | u64::from(word(bytes, record, 1))
}

/// "picked by the id's lowest four bits"
pub fn head_of(id: u64) -> usize {
    (id % HEADS as u64) as usize
}

/// How a chain ends.
#[derive(Clone, Copy, Debug, PartialEq, Eq)]
pub enum End {
    AtZero,
    /// With an index of no record.
    Outside(usize),
    /// With a record that it had before.
    Again(usize),
}

/// A chain as it is written.
pub struct Chain {
    pub records: Vec<usize>,
    pub end: End,
}

impl Chain {
    /// From the head of that number on, up to where it would go nowhere or again over the same records.
    fn of(bytes: &[u8], number: usize) -> Chain {
        let count = bytes.len() / RECORD;
        let mut seen = vec![false; count];
        let mut records = Vec::new();
        let mut next = word(bytes, 0, number) as usize;
        loop {
            let end = match next {
                0 => End::AtZero,
                _ if next >= count => End::Outside(next),
                _ if seen[next] => End::Again(next),
                _ => {
                    seen[next] = true;
                    records.push(next);
                    next = word(bytes, next, 0) as usize;
                    continue;
                }
            };
            return Chain { records, end };
        }
    }

    /// All, the free one last.
    pub fn all(bytes: &[u8]) -> Vec<Chain> {
        (0..=FREE).map(|number| Chain::of(bytes, number)).collect()
    }
}

/// The chains of a drawer that is none of 13, as lists of records.
pub struct Lists(Vec<Vec<usize>>);

impl Lists {
    /// All records but the first are free.
    pub fn fresh(records: usize) -> Lists {
        let mut lists = vec![Vec::new(); HEADS + 1];
        lists[FREE] = (1..records).collect();
        Lists(lists)
    }

    /// Nothing where the drawer is one of 13; counts on what ground.
    pub fn of(bytes: &[u8]) -> Option<Lists> {
        let found = faults(bytes);
        met_all(bytes, &found);
        let lists = found.is_empty().then(|| Lists::taken(bytes))?;
        met_if(!lists.ascend(bytes), Branch::NotAscending);
        Some(lists)
    }

    /// Of a drawer that is none of 13.
    pub fn taken(bytes: &[u8]) -> Lists {
        let chains = Chain::all(bytes).into_iter();
        Lists(chains.map(|chain| chain.records).collect())
    }

    pub fn of_head(&self, head: usize) -> &[usize] {
        &self.0[head]
    }

    /// The chain that an id belongs in.
    pub fn of_id(&self, id: u64) -> &[usize] {
        self.of_head(head_of(id))
    }

    pub fn of_free(&self) -> &[usize] {
        self.of_head(FREE)
    }

    fn ascend(&self, bytes: &[u8]) -> bool {
        let used = self.0[..FREE].iter();
        used.flat_map(|list| list.windows(2))
            .all(|pair| id_of(bytes, pair[0]) < id_of(bytes, pair[1]))
    }

    /// Where an id stands in its chain.
    pub fn place(&self, bytes: &[u8], id: u64) -> Option<usize> {
        let mut records = self.of_id(id).iter();
        records.position(|record| id_of(bytes, *record) == id)
    }

    /// Moves the first free record before the first one with a larger id, else to the end; there is one.
    pub fn take(&mut self, bytes: &[u8], id: u64) -> usize {
        let record = self.0[FREE].remove(0);
        met_if(self.of_free().is_empty(), Branch::SaveTakesLast);
        let list = &mut self.0[head_of(id)];
        let larger = list.iter().position(|other| id_of(bytes, *other) > id);
        met(match larger {
            _ if list.is_empty() => Branch::SaveOnly,
            Some(0) => Branch::SaveFront,
            Some(_) => Branch::SaveMiddle,
            None => Branch::SaveEnd,
        });
        list.insert(larger.unwrap_or(list.len()), record);
        record
    }

    /// Moves a used record ahead of the free ones.
    pub fn give_back(&mut self, id: u64, place: usize) -> usize {
        let list = &mut self.0[head_of(id)];
        met(match place {
            _ if list.len() == 1 => Branch::ForgetOnly,
            0 => Branch::ForgetFront,
            _ if place + 1 == list.len() => Branch::ForgetEnd,
            _ => Branch::ForgetMiddle,
        });
        let record = list.remove(place);
        self.0[FREE].insert(0, record);
        record
    }

    /// Writes every head and every next index.
    pub fn write(&self, bytes: &mut [u8]) {
        for (number, list) in self.0.iter().enumerate() {
            let first = list.first().copied().unwrap_or(0);
            put(bytes, 0, number, first as u32);
            let nexts = list.iter().skip(1).copied().chain([0]);
            for (record, next) in list.iter().zip(nexts) {
                put(bytes, *record, 0, next as u32);
            }
        }
    }
}
