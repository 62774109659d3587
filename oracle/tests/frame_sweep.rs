//! What is kept after each word, on frames written down by hand.

use oracle::frame_checks::{bad_word, frame_refusal, kept_after, sweep_line};
use oracle::frame_vectors::{bare, example, full, Frame, PAIRS};
use oracle::sweep_vectors::{fixed_list, random_list};
use oracle::words::from_bytes;

/// Each option's flag and last word.
const OPTIONS: [(usize, usize); 8] = [
    (10, 14),
    (15, 16),
    (17, 18),
    (54, 56),
    (74, 76),
    (79, 81),
    (91, 97),
    (98, 104),
];

/// The words after which another number is kept than before them, each with that number.
fn changes(frame: Frame) -> Vec<(usize, u32)> {
    let bytes = frame.bytes();
    assert_eq!(kept_after(&bytes, 0), 0);
    let kept = |word| kept_after(&bytes, word);
    let changing = (1..=104).filter(|word| kept(*word) != kept(word - 1));
    let changes: Vec<(usize, u32)> = changing.map(|word| (word, kept(word))).collect();
    // The last of them decides the refusal.
    let last = changes.last().copied().unwrap_or_default();
    assert_eq!((bad_word(&bytes) as usize, frame_refusal(&bytes)), last);
    changes
}

#[test]
fn a_good_frame_keeps_nothing() {
    for frame in [bare(), full(), example()] {
        assert_eq!(changes(frame), []);
        assert_eq!(sweep_line(&frame.bytes()), "0".repeat(104) + "\n");
    }
}

#[test]
fn a_pair_shows_4_at_its_later_word() {
    for (start, end) in PAIRS {
        let frame = full().with_number(start, 7.0);
        assert_eq!(changes(frame.with_number(end, 7.0)), []);
        assert_eq!(changes(frame.with_number(end, 6.0)), [(end, 4)]);
    }
}

/// Whatever the other word of the pair is.
#[test]
fn what_is_not_a_number_shows_3_at_its_own_word() {
    for (start, end) in PAIRS {
        for x in [f32::NAN, f32::INFINITY, -f32::INFINITY] {
            assert_eq!(changes(full().with_number(start, x)), [(start, 3)]);
            assert_eq!(changes(full().with_number(end, x)), [(end, 3)]);
            let both = full().with_number(start, x).with_number(end, x);
            assert_eq!(changes(both), [(start, 3)]);
        }
    }
}

#[test]
fn a_time_shows_3_at_word_53() {
    let latest = 4_294_967_296.0f64.to_bits();
    for bits in [0, latest, 0x0000_0000_ffff_ffff, 0x4000_0000_7fc0_0000] {
        assert_eq!(changes(full().with_time(bits)), []);
    }
    for bits in [latest + 1, u64::MAX, 0x7ff8_0000_0000_0000, 1 << 63 | 1] {
        assert_eq!(changes(full().with_time(bits)), [(53, 3)]);
    }
}

#[test]
fn each_number_shows_at_its_word() {
    for (kind, last) in [(9, 2), (20, 2), (63, 4), (94, 3), (101, 3)] {
        assert_eq!(changes(full().with(kind, last + 1)), [(kind, 2)]);
    }
    for word in [7, 16, 22, 56, 65, 87, 102] {
        let beyond = full().with_number(word, 1_048_577.0);
        assert_eq!(changes(beyond), [(word, 3)]);
    }
    for word in [5, 8, 28, 33, 51, 66, 71, 82, 83] {
        assert_eq!(changes(full().with_number(word, -1.0)), [(word, 4)]);
    }
    for word in [37, 38, 88, 95, 102] {
        assert_eq!(changes(full().with_number(word, -1.0)), [(word, 5)]);
    }
}

#[test]
fn a_flag_shows_2_at_once() {
    for (flag, last) in OPTIONS {
        let garbage = full().with_all(flag + 1..=last, u32::MAX);
        for bits in [2, 0x100, u32::MAX] {
            assert_eq!(changes(garbage.with(flag, bits)), [(flag, 2)]);
        }
    }
}

/// Off, an option shows nothing and hides nothing behind it; on, its first word does.
#[test]
fn words_of_an_option_show_only_where_it_is_on() {
    for (flag, last) in OPTIONS {
        let garbage = full().with_all(flag + 1..=last, u32::MAX);
        let first = (flag + 1, 3);
        assert_eq!(changes(garbage)[0], first);
        assert_eq!(changes(garbage.with(flag, 0)), []);
        let other = if last == 104 { (88, 5) } else { (102, 5) };
        let off = garbage.with(flag, 0).with(other.0, 0);
        assert_eq!(changes(off), [other]);
    }
}

#[test]
fn the_number_falls_and_never_rises() {
    let falls = full().with(37, 0).with_number(43, 19.0);
    let falls = falls.with_number(65, f32::NAN).with(101, 4);
    assert_eq!(changes(falls), [(37, 5), (43, 4), (65, 3), (101, 2)]);
    let two = full().with(9, 3).with_number(47, f32::NAN);
    let two = two.with_number(83, -1.0).with(102, 0);
    assert_eq!(changes(two), [(9, 2)]);
    let three = full().with_number(16, f32::NAN).with_number(43, 19.0);
    assert_eq!(changes(three.with(88, 0)), [(16, 3)]);
    let four = full().with_number(14, 5.0).with(88, 0);
    assert_eq!(changes(four), [(14, 4)]);
    let digits = ["0".repeat(36), "5".repeat(6), "4".repeat(22)].concat();
    let digits = [digits, "3".repeat(36), "2".repeat(4)].concat();
    assert_eq!(sweep_line(&falls.bytes()), digits + "\n");
}

/// The first of them, where several show the same.
#[test]
fn the_first_word_of_the_number_is_the_bad_one() {
    for bits in [2, u32::MAX] {
        assert_eq!(changes(full().with_all([19, 48, 98], bits)), [(19, 2)]);
    }
    let twice = full().with_number(46, 0.0).with_number(71, 2.0);
    assert_eq!(changes(twice.with(38, 1 << 31 | 1)), [(38, 5), (46, 4)]);
}

#[test]
fn a_word_that_shows_several_keeps_the_lowest() {
    for word in [5, 7, 42, 66, 37, 38, 88, 95, 104] {
        let frame = full().with_number(word, -f32::INFINITY);
        assert_eq!(changes(frame), [(word, 3)]);
    }
}

#[test]
fn another_length_has_no_bad_word() {
    let bad = full().with(1, 2).bytes();
    let longer = [bad, vec![0xff; 608]].concat();
    for length in [0, 1, 4, 412, 415, 417, 420, 832, 1024] {
        assert_eq!(bad_word(&longer[..length]), 0);
        assert_eq!(sweep_line(&longer[..length]), "1\n");
    }
    assert_eq!(bad_word(&longer[..416]), 1);
    assert_eq!(sweep_line(&longer[..416]), "2".repeat(104) + "\n");
}

/// The first words of a frame, that many, and behind them words that show nothing whatever those are.
fn completed(bytes: &[u8], count: usize) -> Vec<u8> {
    let rest = PAIRS.iter().fold(full(), |frame, (_, end)| {
        frame.with_number(*end, 1_048_576.0)
    });
    [&bytes[..4 * count], &rest.bytes()[4 * count..]].concat()
}

/// Said by whole frames: what some words show is the refusal of a frame that is good from there on.
#[test]
fn the_number_kept_is_the_refusal_of_the_completed_frame() {
    for bytes in fixed_list().iter().chain(&random_list(1, 2000)) {
        if bytes.len() != 416 {
            continue;
        }
        for count in 0..=104 {
            let whole = completed(bytes, count);
            let words = || from_bytes(bytes);
            let kept = kept_after(bytes, count);
            assert_eq!(kept, frame_refusal(&whole), "{count} {:x?}", words());
        }
    }
}
