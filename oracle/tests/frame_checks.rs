//! Checks 1 to 5 on frames written down by hand.

use oracle::frame_checks::frame_refusal;
use oracle::frame_vectors::{bare, example, full, Frame};

const LIMIT: f32 = 1_048_576.0;

fn refusal(frame: Frame) -> u32 {
    frame_refusal(&frame.bytes())
}

/// The refusal of the full frame with that number at that word.
fn with(word: usize, x: f32) -> u32 {
    refusal(full().with_number(word, x))
}

#[test]
fn good_frames_pass() {
    for frame in [bare(), full()] {
        assert_eq!(refusal(frame), 0);
    }
}

/// Document 01's example, word by word: each number with the words that hold it.
#[test]
fn the_example_of_the_listing_passes() {
    let flags = [2, 3, 4, 25, 27].map(|word| (word, 1));
    let numbers = [
        (5, f32::INFINITY),
        (6, f32::INFINITY),
        (7, 64.0),
        (8, 64.0),
        (37, 1.0),
        (38, 1.0),
        (42, 200.0),
        (43, 100.0),
        (46, 200.0),
        (47, 100.0),
        (82, 180.0),
        (83, 400.0),
        (88, 1.0),
    ];
    let mut words = [0u32; 104];
    let numbers = numbers.map(|(word, x)| (word, x.to_bits()));
    for (word, bits) in flags.into_iter().chain(numbers) {
        words[word - 1] = bits;
    }
    let bytes: Vec<u8> = words.iter().flat_map(|word| word.to_le_bytes()).collect();
    assert_eq!(bytes.len(), 416);
    assert_eq!(frame_refusal(&bytes), 0);
    assert_eq!(bytes, example().bytes());
}

#[test]
fn another_length_is_1() {
    let longer = [full().bytes(), vec![0; 608]].concat();
    for length in [0, 1, 415, 417, 420, 424, 1024] {
        assert_eq!(frame_refusal(&longer[..length]), 1);
    }
    assert_eq!(frame_refusal(&longer[..416]), 0);
}

#[test]
fn flags_and_kinds_are_2() {
    assert_eq!(refusal(full().with(1, 2)), 2);
    assert_eq!(refusal(full().with(98, u32::MAX)), 2);
    for (kind, last) in [(9, 2), (20, 2), (63, 4), (94, 3), (101, 3)] {
        assert_eq!(refusal(full().with(kind, last)), 0);
        assert_eq!(refusal(full().with(kind, last + 1)), 2);
    }
}

#[test]
fn the_limit_itself_passes() {
    let beyond = f32::from_bits(LIMIT.to_bits() + 1);
    for word in [16, 22, 34, 57, 84, 86] {
        assert_eq!([LIMIT, -LIMIT].map(|x| with(word, x)), [0, 0]);
        let bad = [beyond, -beyond, f32::INFINITY, -f32::INFINITY, f32::NAN];
        assert_eq!(bad.map(|x| with(word, x)), [3; 5]);
    }
}

#[test]
fn infinity_passes_only_where_it_is_named() {
    for word in [5, 6, 88, 95, 102] {
        let tried = [f32::INFINITY, f32::MAX, -f32::INFINITY, f32::NAN];
        assert_eq!(tried.map(|x| with(word, x)), [0, 3, 3, 3]);
    }
}

#[test]
fn a_time_is_refused_with_3_alone() {
    let latest = 4_294_967_296.0f64.to_bits();
    let good = [0, 1 << 63, latest, 0x0000_0000_bff0_0000];
    assert_eq!(good.map(|bits| refusal(full().with_time(bits))), [0; 4]);
    let bad = [
        latest + 1,
        (-1.0f64).to_bits(),
        f64::NAN.to_bits(),
        1 << 63 | 1,
    ];
    assert_eq!(bad.map(|bits| refusal(full().with_time(bits))), [3; 4]);
}

#[test]
fn negative_is_by_value() {
    for word in [5, 7, 28, 31, 33, 51, 66, 71, 82] {
        assert_eq!((with(word, -0.0), with(word, -1.0)), (0, 4));
    }
    assert_eq!((with(38, -0.0), with(38, -1.0)), (0, 5));
    for word in [88, 95, 102] {
        assert_eq!([0.0, -0.0, -1.0].map(|x| with(word, x)), [5; 3]);
    }
    for word in [34, 35, 84, 85, 89, 96] {
        assert_eq!(with(word, -1.0), 0);
    }
}

#[test]
fn the_lower_number_wins() {
    let all = full().with(101, 4).with_number(90, f32::NAN);
    let all = all.with_number(5, -1.0).with_number(37, 0.0);
    assert_eq!(frame_refusal(&all.bytes()[..415]), 1);
    assert_eq!(refusal(all), 2);
    assert_eq!(refusal(all.with(101, 3)), 3);
    assert_eq!(refusal(all.with(101, 3).with_number(90, 9.0)), 4);
    let last = all.with(101, 3).with_number(90, 9.0).with_number(5, 1.0);
    assert_eq!(refusal(last), 5);
}

#[test]
fn words_of_an_option_that_is_off_pass() {
    let options = [(10, 14), (15, 16), (17, 18), (54, 56)];
    let others = [(74, 76), (79, 81), (91, 97), (98, 104)];
    for (flag, last) in options.into_iter().chain(others) {
        let garbage = full().with_all(flag + 1..=last, u32::MAX);
        assert_eq!(refusal(garbage.with(flag, 0)), 0);
        assert_ne!(refusal(garbage), 0);
    }
}
