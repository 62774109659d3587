//! The calls on a drawer, byte by byte.

use oracle::clock::StateBytes;
use oracle::drawer::{forget, lay, load, save, tidied, MOST_RECORDS, RECORD};
use oracle::drawer_vectors::{with_words, UNWRITTEN};
use oracle::random::Random;
use oracle::records::FLAGS;
use oracle::words::{from_bytes, in_bytes};

/// A fresh drawer.
fn drawer(records: usize) -> Vec<u8> {
    let mut bytes = vec![0xee; records * RECORD];
    assert_eq!(lay(&mut bytes), 0);
    bytes
}

/// A state whose options are all there, with that word in every number.
fn state(word: u32) -> StateBytes {
    let mut words = [word; 39];
    FLAGS.iter().for_each(|flag| words[*flag] = 1);
    in_bytes(&words).try_into().expect("39 words")
}

/// The words of a record.
fn record(bytes: &[u8], record: usize) -> Vec<u32> {
    from_bytes(&bytes[record * RECORD..][..RECORD])
}

/// The next indices of the records from 1 on.
fn nexts(bytes: &[u8]) -> Vec<u32> {
    let records = 1..bytes.len() / RECORD;
    records.map(|place| record(bytes, place)[0]).collect()
}

#[test]
fn a_fresh_drawer_is_written_whole() {
    for records in [1, 2, 5, 25] {
        let bytes = drawer(records);
        let mut words = vec![0; 42 * records];
        words[16] = u32::from(records > 1);
        words[17] = 168;
        for place in 1..records - 1 {
            words[42 * place] = place as u32 + 1;
        }
        assert_eq!(from_bytes(&bytes), words, "{records}");
    }
}

#[test]
fn a_layout_reads_only_the_length() {
    for length in [0, 1, 4, 167, 169, 335, 337] {
        let mut bytes = vec![0xee; length];
        assert_eq!(lay(&mut bytes), 13, "{length}");
        assert_eq!(bytes, vec![0xee; length]);
    }
}

#[test]
fn a_drawer_has_at_most_65536_records() {
    let mut bytes = drawer(MOST_RECORDS);
    assert_eq!(nexts(&bytes)[MOST_RECORDS - 3..], [65_535, 0]);
    assert_eq!(save(&mut bytes, 5, &state(7)), 0);
    let mut out = UNWRITTEN;
    assert_eq!((load(&bytes, 5, &mut out), out), (0, state(7)));
    bytes.resize((MOST_RECORDS + 1) * RECORD, 0);
    let given = bytes.clone();
    out = UNWRITTEN;
    assert_eq!((load(&bytes, 5, &mut out), out), (13, UNWRITTEN));
    assert_eq!(save(&mut bytes, 5, &state(7)), 13);
    assert_eq!(forget(&mut bytes, 5), 13);
    assert_eq!(lay(&mut bytes), 13);
    assert!(bytes == given);
}

/// Of 2 records: the next index, the id, low word first, and the state.
#[test]
fn a_saved_record_has_its_words() {
    let mut bytes = drawer(2);
    let id = 0x0102_0304_0506_0708;
    assert_eq!(save(&mut bytes, id, &state(9)), 0);
    let mut first = vec![0; 42];
    first[8] = 1;
    first[17] = 168;
    assert_eq!(record(&bytes, 0), first);
    let saved = [vec![0, 0x0506_0708, 0x0102_0304], from_bytes(&state(9))];
    assert_eq!(record(&bytes, 1), saved.concat());
    assert_eq!(forget(&mut bytes, id), 0);
    assert_eq!(bytes, drawer(2));
}

/// Records are taken in their order; each goes before the first larger id.
#[test]
fn chains_of_saves_ascend() {
    let mut bytes = drawer(6);
    for id in [1 << 32, 48, 1 << 63, 16] {
        assert_eq!(save(&mut bytes, id, &state(1)), 0);
    }
    // Chain 0: 16, 48, 1 << 32, 1 << 63, which are records 4, 2, 1, 3.
    assert_eq!(
        record(&bytes, 0)[..18],
        [[4].as_slice(), &[0; 15], &[5, 168]].concat()
    );
    assert_eq!(nexts(&bytes), [3, 1, 0, 2, 0]);
    // A known id stays where it is.
    let before = bytes.clone();
    assert_eq!(save(&mut bytes, 48, &state(2)), 0);
    assert_eq!(nexts(&bytes), nexts(&before));
    assert_eq!(record(&bytes, 2)[3..], from_bytes(&state(2)));
}

/// The last one that was forgotten is taken first, and has zeros until then.
#[test]
fn forgotten_records_serve_again() {
    let mut bytes = drawer(5);
    for id in [16, 32, 48] {
        save(&mut bytes, id, &state(1));
    }
    assert_eq!(forget(&mut bytes, 32), 0);
    assert_eq!(forget(&mut bytes, 16), 0);
    assert_eq!(
        record(&bytes, 0)[..18],
        [[3].as_slice(), &[0; 15], &[1, 168]].concat()
    );
    assert_eq!(nexts(&bytes), [2, 4, 0, 0]);
    assert_eq!(record(&bytes, 2)[1..], [0; 41]);
    assert_eq!(save(&mut bytes, 17, &state(3)), 0);
    assert_eq!(record(&bytes, 0)[..3], [3, 1, 0]);
    assert_eq!(record(&bytes, 0)[16], 2);
}

#[test]
fn refusals_have_their_order_and_change_nothing() {
    let bad = [2; 156];
    let mut bytes = drawer(2);
    assert_eq!(save(&mut bytes, 0, &state(1)), 0);
    let given = bytes.clone();
    assert_eq!(save(&mut bytes, 16, &state(1)), 15);
    assert_eq!(save(&mut bytes, 16, &bad), 6);
    assert_eq!(save(&mut bytes, 0, &bad), 6);
    assert_eq!(forget(&mut bytes, 16), 14);
    assert_eq!(bytes, given);
    let mut out = UNWRITTEN;
    assert_eq!((load(&bytes, 16, &mut out), out), (14, UNWRITTEN));
    bytes[4 * 17] = 0;
    let given = bytes.clone();
    assert_eq!(save(&mut bytes, 0, &bad), 6);
    assert_eq!(save(&mut bytes, 0, &state(1)), 13);
    assert_eq!((load(&bytes, 0, &mut out), out), (13, UNWRITTEN));
    assert_eq!(forget(&mut bytes, 16), 13);
    assert_eq!(bytes, given);
}

#[test]
fn one_record_alone_is_a_drawer() {
    let mut bytes = drawer(1);
    assert_eq!(load(&bytes, 0, &mut UNWRITTEN.clone()), 14);
    assert_eq!(forget(&mut bytes, 0), 14);
    assert_eq!(save(&mut bytes, 0, &state(0)), 15);
    assert_eq!(bytes, drawer(1));
}

/// Any bits, not-a-numbers among them; absent options as zeros, whoever wrote in them.
#[test]
fn states_are_kept_bit_for_bit() {
    let random = &mut Random::new(1);
    for _ in 0..500 {
        let given = with_words(random, Random::word);
        let id = random.long();
        let mut bytes = drawer(2);
        assert_eq!(save(&mut bytes, id, &given), 0);
        assert_eq!(record(&bytes, 1)[3..], from_bytes(&tidied(&given)));
        bytes[RECORD + 12..].copy_from_slice(&given);
        let (kept, mut out) = (bytes.clone(), UNWRITTEN);
        assert_eq!((load(&bytes, id, &mut out), out), (0, tidied(&given)));
        assert_eq!(bytes, kept);
    }
}

/// The words of each option, by hand: two targets, two presses, and the rectangle.
#[test]
fn absent_options_are_zeros() {
    let options = [
        (4, 5..10),
        (10, 11..16),
        (24, 25..26),
        (26, 27..28),
        (30, 31..35),
    ];
    for (flag, words) in options {
        let mut given = from_bytes(&state(u32::MAX));
        given[flag] = 0;
        let mut expected = given.clone();
        expected[words].fill(0);
        let given = in_bytes(&given).try_into().expect("39 words");
        assert_eq!(from_bytes(&tidied(&given)), expected, "{flag}");
    }
}
