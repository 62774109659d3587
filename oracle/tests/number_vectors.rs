//! The shape of the numbers' calls.

mod common;

use common::assert_no_record_repeats;
use oracle::number_vectors::{fixed_list, random_list, Call, CALLS};
use oracle::words::from_bytes;

#[test]
fn every_record_has_36_bytes_and_begins_with_the_number() {
    for call in fixed_list().iter().chain(&random_list(1, 1000)) {
        let record = call.input_record();
        assert_eq!(record.len(), 36);
        assert_eq!(from_bytes(&record)[0] as usize, call.number());
    }
}

#[test]
fn every_line_shows_the_operands_of_its_record() {
    for call in fixed_list().iter().chain(&random_list(1, 1000)) {
        let (name, used) = CALLS[call.number() - 1];
        let words = from_bytes(&call.input_record());
        let line = call.output_line();
        let shown: Vec<&str> = line.split_whitespace().collect();
        assert_eq!((shown[0], shown[used + 1]), (name, "="));
        for (word, shown) in words[1..=used].iter().zip(&shown[1..]) {
            assert_eq!(*shown, format!("{word:08x}"));
        }
        assert!(words[used + 1..].iter().all(|word| *word == 0));
    }
}

#[test]
fn the_fixed_list_has_every_call_and_its_size() {
    let list = fixed_list();
    assert_eq!(list.len(), 621);
    for number in 1..=CALLS.len() {
        assert!(list.iter().any(|call| call.number() == number), "{number}");
    }
}

/// From -16 on by the table, from -32 on by one halving, from -64 on by two, from -80 on by three, below it 0.
#[test]
fn exp_is_asked_for_every_number_of_halvings() {
    let exp = CALLS.iter().position(|call| call.0 == "exp").expect("exp") + 1;
    for (list, least) in [(fixed_list(), 3), (random_list(1, 23_000), 60)] {
        let calls = list.iter().filter(|call| call.number() == exp);
        let words = calls.map(|call| from_bytes(&call.input_record())[1]);
        let asked: Vec<f32> = words.map(f32::from_bits).collect();
        let ends = [0.0, -16.0, -32.0, -64.0, -80.0, f32::NEG_INFINITY];
        for pair in ends.windows(2) {
            let met = asked.iter().filter(|x| pair[1] <= **x && **x < pair[0]);
            assert!(met.count() >= least, "{pair:?}");
        }
    }
}

#[test]
fn the_fixed_list_repeats_no_record() {
    let list = fixed_list();
    assert_no_record_repeats(list.iter().map(Call::input_record).collect());
}
