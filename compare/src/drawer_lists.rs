//! The lists of calls on drawers.

use oracle::drawer::{LENGTH_WORD, MOST_RECORDS, RECORD};
use oracle::drawer_vectors::{fixed_list, honest_list, written_list, Call};
use oracle::random::Random;

use crate::drawers::compare;
use crate::frames::made;
use crate::small_drawers;
use crate::tally::{Part, Tally};

/// Calls in one list.
const LIST: u64 = 10_000;

/// The calls that are stored for the gate, the largest drawers, all small ones, then that many on drawers that nobody else writes, and as many
/// on others; none where none is wanted.
pub fn of_all(tally: &mut Tally, seed: u64, count: u64) {
    if count == 0 {
        return;
    }
    compare(
        tally,
        Part::WrittenDrawers,
        &made(fixed_list),
        "the stored list",
    );
    compare(tally, Part::LargeDrawers, &large(), "the largest drawers");
    small_drawers::of_all(tally);
    let mut random = Random::new(seed ^ 0x1313);
    of_kind(tally, Part::HonestDrawers, &mut random, count, honest_list);
    of_kind(
        tally,
        Part::WrittenDrawers,
        &mut random,
        count,
        written_list,
    );
}

fn of_kind(
    tally: &mut Tally,
    part: Part,
    random: &mut Random,
    count: u64,
    list: fn(u64, usize) -> Vec<Call>,
) {
    let mut done = 0;
    while done < count {
        let (list_seed, wanted) = (random.long(), LIST.min(count - done) as usize);
        let calls = made(move || list(list_seed, wanted));
        compare(tally, part, &calls, &format!("list of seed {list_seed}"));
        done += wanted as u64;
        tally.progress(part.name(), done, count);
    }
}

fn put(bytes: &mut [u8], record: usize, word: usize, bits: u32) {
    bytes[record * RECORD + 4 * word..][..4].copy_from_slice(&bits.to_le_bytes());
}

/// A drawer of that many records whose records all hold a state, as saves of ids that ascend leave it.
fn full(records: usize) -> Vec<u8> {
    let mut bytes = vec![0; records * RECORD];
    put(&mut bytes, 0, LENGTH_WORD, RECORD as u32);
    for record in 1..records {
        let head = record % 16;
        put(&mut bytes, record, 1, record as u32);
        match record {
            0..=16 => put(&mut bytes, 0, head, record as u32),
            _ => put(&mut bytes, record - 16, 0, record as u32),
        }
    }
    bytes
}

/// Every call on a drawer as large as can be, fresh and full, and on one with a record more.
fn large() -> Vec<Call> {
    let last = MOST_RECORDS as u64 - 1;
    let save = |id| Call::Save(id, Box::new([0; 156]));
    let mut list = vec![Call::Given(vec![0xee; MOST_RECORDS * RECORD]), Call::Lay];
    list.extend([
        Call::Load(1),
        save(1),
        save(u64::MAX),
        Call::Load(1),
        Call::Forget(1),
    ]);
    list.push(Call::Given(full(MOST_RECORDS)));
    list.extend([Call::Load(last), save(1 << 40), save(last)]);
    list.extend([Call::Forget(last), save(1 << 40), Call::Load(1 << 40)]);
    // The last link of all names the record behind the drawer.
    let next = (MOST_RECORDS - 1) * RECORD;
    list.push(Call::Put(next, (MOST_RECORDS as u32).to_le_bytes()));
    list.push(Call::Load(1));
    list.push(Call::Given(full(MOST_RECORDS + 1)));
    list.extend([Call::Load(1), save(1), Call::Forget(1), Call::Lay]);
    list
}
