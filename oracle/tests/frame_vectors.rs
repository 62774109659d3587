//! The shape of the frame calls, and what they meet.

mod common;

use common::assert_no_record_repeats;
use oracle::clock::Remembering;
use oracle::frame_checks::bad_word;
use oracle::frame_vectors::{bare, fixed_list, full, random_list, Call};
use oracle::words::from_bytes;

#[test]
fn every_record_has_584_bytes_and_begins_with_the_length() {
    for call in fixed_list().iter().chain(&random_list(1, 1000)) {
        let record = call.input_record();
        assert_eq!(record.len(), 584);
        let length = from_bytes(&record)[0] as usize;
        assert!(length <= 424);
        assert!(record[4 + length..428].iter().all(|byte| *byte == 0));
        // The length alone decides about 1, whatever the bytes are.
        assert_eq!(length != 416, call.refusal() == 1);
    }
}

#[test]
fn the_first_record_is_the_bare_frame_with_a_fresh_state() {
    let words = from_bytes(&fixed_list()[0].input_record());
    assert_eq!(words[0], 416);
    assert_eq!(words[1..105], from_bytes(&bare().bytes()));
    assert_eq!(words[105..107], [0, 0]);
    assert_eq!(words[107..], Remembering::default().record());
}

/// A bad word is there where the refusal is one of 2 to 5, and only there.
#[test]
fn every_line_is_the_refusal_and_the_bad_word() {
    for call in fixed_list().iter().chain(&random_list(1, 1000)) {
        let (refusal, word) = (call.refusal(), bad_word(call.frame()));
        assert_eq!(call.output_line(), format!("{refusal} {word}\n"));
        assert_eq!((1..=104).contains(&word), (2..=5).contains(&refusal));
        assert!(word <= 104);
    }
}

/// The low word of a time shows nothing by itself.
#[test]
fn every_word_but_52_is_a_bad_one() {
    let list = fixed_list();
    let met: Vec<u32> = list.iter().map(|call| bad_word(call.frame())).collect();
    for word in 0..=104 {
        assert_eq!(met.contains(&word), word != 52, "{word}");
    }
}

#[test]
fn the_fixed_list_has_its_size_and_repeats_no_record() {
    let list = fixed_list();
    assert!((1600..=1800).contains(&list.len()), "{} calls", list.len());
    assert_no_record_repeats(list.iter().map(Call::input_record).collect());
}

#[test]
fn every_refusal_is_met() {
    for (list, least) in [(fixed_list(), 40), (random_list(1, 30_000), 500)] {
        for refusal in [0, 1, 2, 3, 4, 5, 6, 12] {
            let met = list.iter().filter(|call| call.refusal() == refusal);
            assert!(met.count() >= least, "{refusal}");
        }
    }
}

/// For each word, some refused call differs from the full frame there and nowhere else.
#[test]
fn every_word_of_the_full_frame_is_refused_by_itself() {
    let good = from_bytes(&full().bytes());
    let calls: Vec<(Vec<u32>, u32)> = fixed_list()
        .iter()
        .map(|call| (from_bytes(&call.input_record()), call.refusal()))
        .filter(|(words, refusal)| words[0] == 416 && (2..=5).contains(refusal))
        .collect();
    // The low word of a time in range cannot leave the range alone.
    for word in (1..=104).filter(|word| *word != 52) {
        let differs_there = |words: &Vec<u32>| {
            let differing = (1..=104).filter(|n| words[*n] != good[n - 1]);
            differing.eq([word])
        };
        assert!(
            calls.iter().any(|(words, _)| differs_there(words)),
            "{word}"
        );
    }
}
