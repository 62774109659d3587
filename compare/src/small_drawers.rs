//! Every drawer of up to four records with ids 0, 1 and 16: every way to write the links of its records and of heads 0, 1 and 16, with one call of
//! each kind; and every list of three calls on those that are good and whose free records have id 0.

use oracle::clock::StateBytes;
use oracle::drawer::{chains_of, faults, LENGTH_WORD, RECORD, STATE_WORD};
use oracle::drawer_vectors::Call;

use crate::drawers::compare;
use crate::tally::{Part, Tally};

const IDS: [u64; 3] = [0, 1, 16];

/// Of the links that are written: the heads of chains 0 and 1, and of the free one.
const HEADS: [usize; 3] = [0, 1, 16];

pub fn of_all(tally: &mut Tally) {
    for records in 1..=4 {
        of_records(tally, records);
        tally.progress(Part::SmallDrawers.name(), records as u64, 4);
    }
}

/// Each link is a record's index, 0, or the one behind the drawer.
fn of_records(tally: &mut Tally, records: usize) {
    let links = HEADS.len() + records - 1;
    let ways = (records + 1).pow(links as u32);
    for way in 0..ways {
        for ids in 0..IDS.len().pow(records as u32 - 1) {
            let bytes = written(records, way, ids);
            let what = format!("{records} records, links {way}, ids {ids}");
            of_drawer(tally, bytes, &what);
        }
    }
}

/// The drawer whose links and ids are the digits of those numbers.
fn written(records: usize, mut way: usize, mut ids: usize) -> Vec<u8> {
    let mut bytes = vec![0; records * RECORD];
    bytes[4 * LENGTH_WORD] = RECORD as u8;
    let nexts = (1..records).map(|record| record * RECORD);
    for place in HEADS.map(|head| 4 * head).into_iter().chain(nexts) {
        let link = (way % (records + 1)) as u32;
        bytes[place..place + 4].copy_from_slice(&link.to_le_bytes());
        way /= records + 1;
    }
    for record in 1..records {
        let place = record * RECORD + 4;
        let id = IDS[ids % IDS.len()];
        bytes[place..place + 8].copy_from_slice(&id.to_le_bytes());
        bytes[place + 4 * (STATE_WORD - 1)] = record as u8;
        ids /= IDS.len();
    }
    bytes
}

fn state(number: u8) -> StateBytes {
    let mut state = [0; 156];
    state[1] = number;
    state
}

fn calls() -> Vec<Call> {
    let of_id = |id: u64| {
        let saves = [1, 2].map(|number| Call::Save(id, Box::new(state(number))));
        saves.into_iter().chain([Call::Load(id), Call::Forget(id)])
    };
    IDS.into_iter().flat_map(of_id).collect()
}

/// Whether it is a drawer, and every free record has the first of the ids: the others would only show the same again.
fn is_to_be_called(bytes: &[u8]) -> bool {
    let is_first = |record: usize| bytes[record * RECORD + 4..][..8] == [0; 8];
    faults(bytes).is_empty() && chains_of(bytes)[16].iter().all(|record| is_first(*record))
}

/// All lists of three calls where it is good, else one of each call.
fn of_drawer(tally: &mut Tally, bytes: Vec<u8>, what: &str) {
    let is_to_be_called = is_to_be_called(&bytes);
    let given = Call::Given(bytes);
    let calls = calls();
    if !is_to_be_called {
        let list = [given, Call::Load(0), calls[0].clone(), Call::Forget(16)];
        return compare(tally, Part::SmallDrawers, &list, what);
    }
    for first in &calls {
        for second in &calls {
            for third in &calls {
                let list = [&given, first, second, third].map(Call::clone);
                compare(tally, Part::SmallDrawers, &list, what);
            }
        }
    }
}
