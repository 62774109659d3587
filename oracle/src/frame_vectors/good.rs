//! Frames that no check turns back.

use super::frame::Frame;
use super::places::{Choice, FLAGS, KINDS, OPTIONS};
use crate::words::INF;

/// Document 01's example of the listing.
pub fn example() -> Frame {
    Frame::ZEROS
        .with_all([2, 3, 4, 25, 27], 1)
        .with_numbers(5, &[INF, INF, 64.0, 64.0])
        .with_numbers(37, &[1.0, 1.0])
        .with_numbers(40, &[0.0, 0.0, 200.0, 100.0])
        .with_numbers(44, &[0.0, 0.0, 200.0, 100.0])
        .with_numbers(82, &[180.0, 400.0])
        .with_number(88, 1.0)
}

/// All options off with zeros inside, all flags and kinds 0; no two numbers of a pair are equal.
pub fn bare() -> Frame {
    Frame::ZEROS
        .with_numbers(5, &[640.0, 480.0, 64.0, 48.0])
        .with_numbers(22, &[1.5, -2.0])
        .with_numbers(28, &[6.0, 10.0, 4.0, 2.0, 3.0, 12.0, 8.0, -3.0])
        .with_numbers(37, &[0.25, 0.5])
        .with_numbers(40, &[-10.0, 20.0, 190.0, 120.0])
        .with_numbers(44, &[1.0, 30.0, 200.0, 130.0])
        .with_number(51, 0.016)
        .with_time(12.625f64.to_bits())
        .with_numbers(57, &[3.0, -4.0, 100.0, -200.0])
        .with_numbers(64, &[1.5, -2.5])
        .with_numbers(66, &[0.25, 0.5, 0.75, 0.125, 0.375, 0.625])
        .with_numbers(82, &[180.0, 400.0, -5.0, 25.0, 7.0, -8.0])
        .with_numbers(88, &[1000.0, -0.125, 0.5])
}

/// All options on, all flags 1, all kinds at their last value.
pub fn full() -> Frame {
    let frame = bare()
        .with_numbers(11, &[5.0, 6.0, 195.0, 106.0])
        .with_number(16, 12.0)
        .with_number(18, -13.0)
        .with_numbers(55, &[50.0, 60.0])
        .with_numbers(75, &[70.0, -80.0])
        .with_numbers(80, &[-90.0, 95.0])
        .with_numbers(92, &[40.0, 80.0])
        .with_numbers(95, &[500.0, 0.25, 0.75])
        .with_numbers(99, &[-45.0, 90.0])
        .with_numbers(102, &[600.0, 0.3, 0.9]);
    let kinds = |frame: Frame, (kind, last)| frame.with(kind, last);
    KINDS.into_iter().fold(frame, kinds).with_all(FLAGS, 1)
}

/// The full frame with one option off; its words stay.
pub fn without(option: &Choice) -> Frame {
    full().with(option.flag, 0)
}

/// The bare frame with one option on.
pub fn only(option: &Choice) -> Frame {
    let words = option.words.clone();
    let copied = |frame: Frame, word| frame.with(word, full().word(word));
    words.fold(bare(), copied).with(option.flag, 1)
}

/// Every option off with garbage inside.
pub fn bare_with_garbage() -> Frame {
    let words = OPTIONS.into_iter().flat_map(|option| option.words);
    bare().with_all(words, u32::MAX)
}
