//! What is 13, and on which grounds: by hand, and by another way to say it.

use oracle::clock::StateBytes;
use oracle::drawer::Fault::{self, *};
use oracle::drawer::{faults, lay, save, RECORD};
use oracle::drawer_vectors::{fixed_list, written_list, Call, Kept};
use oracle::records::FLAGS;
use oracle::words::from_bytes;

/// Records 1 and 2 in chain 0 with ids 0 and 16, 3 in chain 1 with id 1, and 4 free.
fn drawer() -> Vec<u8> {
    let mut bytes = vec![0; 5 * RECORD];
    lay(&mut bytes);
    for id in [0, 16, 1] {
        assert_eq!(save(&mut bytes, id, &[0; 156]), 0);
    }
    bytes
}

/// The grounds after these words are written: the record, the word, and its bits.
fn grounds(words: &[(usize, usize, u32)]) -> Vec<Fault> {
    let mut bytes = drawer();
    for (record, word, bits) in words {
        bytes[record * RECORD + 4 * word..][..4].copy_from_slice(&bits.to_le_bytes());
    }
    faults(&bytes)
}

#[test]
fn every_ground_is_found() {
    assert_eq!(grounds(&[]), []);
    assert_eq!(faults(&[]), [Empty]);
    assert_eq!(faults(&drawer()[..839]), [NotWhole]);
    assert_eq!(grounds(&[(0, 17, 169)]), [OtherLength]);
    assert_eq!(grounds(&[(3, 0, 5)]), [RunsOut]);
    assert_eq!(grounds(&[(0, 15, u32::MAX)]), [RunsOut]);
    assert_eq!(grounds(&[(4, 0, 0x0001_0001)]), [RunsOut]);
    // Another chain's head in a chain is under the wrong head too.
    assert_eq!(grounds(&[(2, 0, 3)]), [UsedMeet, WrongHead]);
    assert_eq!(grounds(&[(0, 2, 3)]), [UsedMeet, WrongHead]);
    assert_eq!(grounds(&[(4, 0, 3)]), [FreeMeets]);
    assert_eq!(grounds(&[(0, 16, 2)]), [FreeMeets, Misses]);
    assert_eq!(grounds(&[(3, 0, 4), (4, 1, 17)]), [FreeMeets]);
    assert_eq!(grounds(&[(2, 0, 1)]), [Circles]);
    assert_eq!(grounds(&[(4, 0, 4)]), [Circles]);
    assert_eq!(grounds(&[(0, 16, 0)]), [Misses]);
    assert_eq!(grounds(&[(0, 0, 2)]), [Misses]);
    // A circle that no chain comes to is missed.
    assert_eq!(grounds(&[(0, 16, 0), (4, 0, 4)]), [Misses]);
    assert_eq!(grounds(&[(2, 1, 0)]), [IdTwice]);
    assert_eq!(grounds(&[(3, 1, 16)]), [IdTwice, WrongHead]);
    assert_eq!(grounds(&[(3, 1, 2)]), [WrongHead]);
    for flag in FLAGS {
        assert_eq!(grounds(&[(3, 3 + flag, 2)]), [Flag]);
        assert_eq!(grounds(&[(3, 3 + flag, 0x0100_0001)]), [Flag]);
        // A free record has no state.
        assert_eq!(grounds(&[(4, 3 + flag, 2)]), []);
    }
}

#[test]
fn other_words_are_no_ground() {
    for word in 18..42 {
        assert_eq!(grounds(&[(0, word, u32::MAX)]), []);
    }
    for word in 1..42 {
        assert_eq!(grounds(&[(4, word, u32::MAX)]), []);
    }
    for word in (0..39).filter(|word| !FLAGS.contains(word)) {
        assert_eq!(grounds(&[(2, 3 + word, u32::MAX)]), []);
    }
    // The high word of an id, and chain 0 in the other order.
    assert_eq!(grounds(&[(1, 2, 1)]), []);
    assert_eq!(grounds(&[(0, 0, 2), (2, 0, 1), (1, 0, 0)]), []);
}

/// Said otherwise: every link names a record or none, each record from 1 on is named once, and from each one the way back ends at a head,
/// which is its id's own or the free chain's.
fn is_drawer(bytes: &[u8]) -> bool {
    let count = bytes.len() / RECORD;
    if bytes.len() % RECORD != 0 || count == 0 || count > 65_536 {
        return false;
    }
    let words = from_bytes(bytes);
    let heads = (0..17).map(|head| (None, head, words[head] as usize));
    let nexts = (1..count).map(|record| (Some(record), 0, words[42 * record] as usize));
    let mut named = vec![None; count];
    for (from, head, to) in heads.chain(nexts) {
        if to >= count || (to > 0 && named[to].is_some()) {
            return false;
        }
        if to > 0 {
            named[to] = Some((from, head));
        }
    }
    let head_of = |record: usize| {
        let mut at = record;
        for _ in 0..count {
            match named[at]? {
                (Some(before), _) => at = before,
                (None, head) => return Some(head),
            }
        }
        None
    };
    words[17] == 168 && are_records_good(&words, count, head_of)
}

fn are_records_good(words: &[u32], count: usize, head_of: impl Fn(usize) -> Option<usize>) -> bool {
    let mut ids = Vec::new();
    for record in 1..count {
        let of_record = &words[42 * record..][..42];
        match head_of(record) {
            None => return false,
            Some(16) => continue,
            Some(head) if of_record[1] as usize % 16 != head => return false,
            Some(_) => ids.push((of_record[2], of_record[1])),
        }
        if FLAGS.iter().any(|flag| of_record[3 + flag] > 1) {
            return false;
        }
    }
    let all = ids.len();
    ids.sort();
    ids.dedup();
    ids.len() == all
}

/// On every buffer that a list leads to.
fn assert_said_otherwise(list: &[Call]) -> [usize; 2] {
    let mut kept = Kept::none();
    let mut met = [0, 0];
    for call in list {
        kept.call(call);
        let is_good = is_drawer(&kept.bytes);
        assert_eq!(faults(&kept.bytes).is_empty(), is_good, "{call:?}");
        met[usize::from(is_good)] += 1;
    }
    met
}

#[test]
fn another_way_to_say_it_agrees_on_lists() {
    let lists = [fixed_list(), written_list(11, 10_000)];
    for list in lists {
        let met = assert_said_otherwise(&list);
        assert!(met.iter().all(|count| *count >= 600), "{met:?}");
    }
}

/// All links of a drawer of four records, on chains 0, 1 and the free one; ids 0, 1 and 16.
#[test]
fn another_way_to_say_it_agrees_on_all_links() {
    let mut good = 0;
    for way in 0..5usize.pow(6) {
        let digit = |place: u32| (way / 5usize.pow(place) % 5) as u32;
        let mut bytes = vec![0; 4 * RECORD];
        let mut put = |place: usize, bits: u32| {
            bytes[4 * place..][..4].copy_from_slice(&bits.to_le_bytes());
        };
        put(17, 168);
        for (place, link) in [0, 1, 16, 42, 84, 126].into_iter().zip(0..) {
            put(place, digit(link));
        }
        [0, 1, 16]
            .iter()
            .zip(1..)
            .for_each(|(id, record)| put(42 * record + 1, *id));
        assert_eq!(faults(&bytes).is_empty(), is_drawer(&bytes), "{way}");
        good += usize::from(faults(&bytes).is_empty());
    }
    // By how many are used: none 6, one 3 times 2, two 2 + 1 + 1, all three 2; each time 1 for the ids.
    assert_eq!(good, 6 + 3 * 2 + (2 + 1 + 1) + 2);
}

#[test]
fn a_state_of_any_numbers_is_no_ground() {
    let mut state: StateBytes = [0xff; 156];
    for flag in FLAGS {
        state[4 * flag..][..4].copy_from_slice(&[1, 0, 0, 0]);
    }
    let mut bytes = drawer();
    assert_eq!(save(&mut bytes, u64::MAX, &state), 0);
    assert_eq!(faults(&bytes), []);
}
