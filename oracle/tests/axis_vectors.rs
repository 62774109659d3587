//! The shape of the axis calls, and what they meet.

mod common;

use common::assert_no_record_repeats;
use oracle::axis_vectors::{fixed_list, random_list, Call, Kind};
use oracle::words::from_bytes;

/// How many calls of that kind meet that refusal.
fn count(list: &[Call], kind: Kind, refusal: u32) -> usize {
    let calls = list.iter().filter(|call| call.kind() == kind);
    calls.filter(|call| call.refusal() == refusal).count()
}

#[test]
fn every_record_has_56_bytes_and_begins_with_the_kind() {
    for call in fixed_list().iter().chain(&random_list(1, 1000)) {
        let record = call.input_record();
        assert_eq!(record.len(), 56);
        assert_eq!(from_bytes(&record)[0], call.kind() as u32);
    }
}

#[test]
fn every_line_shows_the_operands_and_the_whole_answer() {
    for call in fixed_list().iter().chain(&random_list(1, 1000)) {
        let kind = call.kind();
        let used = kind.used();
        let words = from_bytes(&call.input_record());
        let line = call.output_line();
        let shown: Vec<&str> = line.trim_end().split(' ').collect();
        assert_eq!((shown[0], shown[used + 1]), (kind.name(), "="));
        for (word, shown) in words[1..=used].iter().zip(&shown[1..]) {
            assert_eq!(*shown, format!("{word:08x}"));
        }
        assert!(words[used + 1..].iter().all(|word| *word == 0));
        assert_eq!(shown[used + 2], call.refusal().to_string());
        let lengths: Vec<usize> = shown[used + 3..].iter().map(|part| part.len()).collect();
        let expected: &[usize] = match kind {
            Kind::Drag => &[8],
            Kind::Step => &[8, 8, 1],
            Kind::Wheel => &[8, 8, 1, 1],
        };
        assert_eq!(lengths, expected);
    }
}

#[test]
fn the_fixed_list_has_its_size_and_repeats_no_record() {
    let list = fixed_list();
    // Turns at nine offsets by six deltas, of five sources, before and after a bounce: with rubber band off, on, and with four deltas with
    // both parents; at five other offsets by two deltas, of three sources, likewise. Three of the named ones are not among these.
    let turns = 9 * 5 * 2 * (6 + 6 + 4) + 5 * 3 * 2 * (2 + 2 + 2) + 3;
    assert_eq!(list.len(), 851 + turns);
    assert_no_record_repeats(list.iter().map(Call::input_record).collect());
}

#[test]
fn every_refusal_is_met() {
    for (list, least) in [(fixed_list(), 4), (random_list(1, 30_000), 200)] {
        for kind in Kind::ALL {
            for refusal in [0, 3, 4, 5, 6] {
                assert!(count(&list, kind, refusal) >= least, "{kind:?} {refusal}");
            }
        }
        assert!(count(&list, Kind::Step, 8) >= least);
        // A delta within the limit cannot carry a finite offset to infinity.
        assert_eq!(count(&list, Kind::Drag, 8), 0);
        assert_eq!(count(&list, Kind::Wheel, 8), 0);
    }
}

/// Whether an accepted step springs, and its exponent; none where it holds or rests.
fn exponent(call: &Call) -> Option<(bool, f32)> {
    if call.kind() != Kind::Step || call.refusal() != 0 {
        return None;
    }
    let words = from_bytes(&call.input_record());
    let number = |place: usize| f32::from_bits(words[1 + place]);
    let (decay_time, stop_distance) = (number(3), number(4));
    let (offset, velocity, dt) = (number(6), number(7), number(8));
    let out = offset < number(0) || number(1) < offset;
    let left = velocity.abs() * decay_time;
    if words[1 + 5] == 1 && out {
        (words[1 + 9] == 0).then_some((true, -10.0 * dt))
    } else {
        (stop_distance <= left && left.is_finite()).then_some((false, -dt / decay_time))
    }
}

/// From -16 on by the table, from -32 on by one halving, from -64 on by two, from -80 on by three, below it 0.
#[test]
fn coasts_and_springs_meet_every_number_of_halvings() {
    for (list, least) in [(fixed_list(), 4), (random_list(1, 30_000), 60)] {
        let exponents: Vec<(bool, f32)> = list.iter().filter_map(exponent).collect();
        let ends = [f32::INFINITY, -16.0, -32.0, -64.0, -80.0, f32::NEG_INFINITY];
        for springs in [false, true] {
            for pair in ends.windows(2) {
                let inside = |x: f32| pair[1] <= x && x < pair[0];
                let met = exponents
                    .iter()
                    .filter(|one| one.0 == springs && inside(one.1));
                assert!(met.count() >= least, "{springs} {pair:?}");
            }
        }
    }
}
