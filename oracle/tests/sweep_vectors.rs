//! The shape of the frames for the sweep, and what they meet.

mod common;

use common::assert_no_record_repeats;
use oracle::frame_checks::{bad_word, frame_refusal, sweep_line};
use oracle::frame_vectors;
use oracle::sweep_vectors::{fixed_list, random_list};

#[test]
fn only_the_last_frame_is_short() {
    for list in [fixed_list(), random_list(1, 500), random_list(2, 1)] {
        let (last, others) = list.split_last().expect("a frame");
        assert!((1..416).contains(&last.len()));
        assert!(others.iter().all(|frame| frame.len() == 416));
    }
    assert!(random_list(1, 0).is_empty());
}

#[test]
fn a_seed_gives_one_list() {
    assert_eq!(random_list(5, 500), random_list(5, 500));
    assert_ne!(random_list(5, 500), random_list(6, 500));
}

#[test]
fn the_fixed_list_has_its_size_and_repeats_no_frame() {
    let list = fixed_list();
    assert!((1300..=1500).contains(&list.len()), "{}", list.len());
    assert_no_record_repeats(list);
}

#[test]
fn the_fixed_list_has_every_frame_of_the_checks() {
    let list = fixed_list();
    let calls = frame_vectors::fixed_list();
    let frames = calls.iter().map(|call| call.frame());
    for frame in frames.filter(|frame| frame.len() == 416) {
        assert!(list.iter().any(|part| part == frame));
    }
}

/// The digits of a line that differ from the one before, in order.
fn kept_in_turn(part: &[u8]) -> String {
    let mut digits: Vec<char> = sweep_line(part).trim_end().chars().collect();
    digits.dedup();
    digits.into_iter().collect()
}

/// The number falls from 0 for none to the refusal; the digits of the last number begin at the bad word.
#[test]
fn every_line_ends_with_the_refusal_from_the_bad_word_on() {
    for part in fixed_list().iter().chain(&random_list(1, 2000)) {
        let (line, refusal) = (sweep_line(part), frame_refusal(part));
        if part.len() != 416 {
            assert_eq!((&line[..], bad_word(part)), ("1\n", 0));
            continue;
        }
        assert_eq!(line.len(), 105);
        let begins = line.find(&refusal.to_string()).expect("the refusal");
        let expected = if refusal == 0 { 0 } else { begins as u32 + 1 };
        assert_eq!(bad_word(part), expected);
        let in_turn = kept_in_turn(part);
        let shown: Vec<char> = in_turn.trim_start_matches('0').chars().collect();
        assert!(shown.windows(2).all(|pair| pair[0] > pair[1]), "{in_turn}");
        assert!(line.trim_end().ends_with(&refusal.to_string()));
    }
}

/// A good frame, one number alone, and each order in which it falls.
#[test]
fn every_way_to_fall_is_met() {
    let mut expected: Vec<String> = vec!["0".to_owned(), "1".to_owned()];
    for numbers in 1..16 {
        let shown = (2..=5)
            .rev()
            .filter(|number| numbers >> (number - 2) & 1 == 1);
        let digits: String = shown.map(|number: u32| number.to_string()).collect();
        expected.push(format!("0{digits}"));
    }
    for list in [fixed_list(), random_list(1, 20_000)] {
        let met: Vec<String> = list.iter().map(|part| kept_in_turn(part)).collect();
        for way in &expected {
            assert!(met.contains(way), "{way}");
        }
    }
}

/// The low word of a time shows nothing by itself.
#[test]
fn every_word_but_52_is_a_bad_one() {
    for list in [fixed_list(), random_list(1, 20_000)] {
        let met: Vec<u32> = list.iter().map(|part| bad_word(part)).collect();
        for word in 0..=104 {
            assert_eq!(met.contains(&word), word != 52, "{word}");
        }
    }
}

#[cfg(feature = "branches")]
#[test]
fn every_branch_of_bad_words_is_met() {
    use oracle::branches::{count_of, OF_BAD_WORDS};
    for part in fixed_list() {
        bad_word(&part);
    }
    assert_eq!(OF_BAD_WORDS.len(), 10);
    for (branch, words) in OF_BAD_WORDS {
        assert!(count_of(*branch) > 0, "{words}");
    }
}
