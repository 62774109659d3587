//! Frames and resets on records that are given: what no frame leaves in a record, before a reset and after it.

use super::altered::{record_of, with_absent, with_time, with_word};
use super::fixed_clocks::LATER;
use super::fixed_records::{WORDS, WRONG};
use super::fixed_refusals::slips;
use super::lists::{list, moving, NOW};
use super::Record;
use crate::clock::StateBytes;
use crate::frame_vectors::{stored, DOUBLES};
use crate::records::{FLAGS, OPTIONS};

/// Before the frame's own time, and no word of it is 0.
const EARLIER: f64 = NOW - 0.1;

/// A not-a-number that signals, with a sign and no two bytes alike.
const SIGNALLING: u64 = 0xfff4_0102_0304_0506;

pub fn on_given_records() -> Vec<Record> {
    let groups = [
        remembered_patterns,
        refused_with_a_signalling_time,
        damaged_records,
        littered_records,
        times_below_zero,
    ];
    groups.iter().flat_map(|group| group()).collect()
}

/// A list that moves and has no option, with these bits for the remembered time.
fn remembering(bits: u64) -> StateBytes {
    let mut egui = moving(150.0, 90.0);
    egui.interact_rect = None;
    with_time(record_of(&egui.into()), bits)
}

/// The record, the frame on it, a reset, and the same frame once more.
fn around_a_reset(record: StateBytes) -> [Record; 4] {
    let frame = Record::frame(&list());
    [Record::Given(record), frame.clone(), Record::Reset, frame]
}

/// Not finite: 6 until the reset; as large as can be, or with a half that would be another number.
fn remembered_patterns() -> Vec<Record> {
    let patterns = DOUBLES.into_iter().chain([SIGNALLING]);
    patterns
        .flat_map(|bits| around_a_reset(remembering(bits)))
        .collect()
}

/// Every frame that is refused by itself, and at last by the time: its bits stay.
fn refused_with_a_signalling_time() -> Vec<Record> {
    let mut records = vec![Record::Given(remembering(SIGNALLING))];
    records.extend(slips().map(|(word, bits)| Record::frame(&list().with(word, bits))));
    records.push(Record::Frame(list().bytes()[..415].to_vec()));
    records.push(Record::frame(&list()));
    records
}

/// A record with every option there and no two numbers alike, in which these flags are outside their values.
fn damaged(time: f64, flags: &[(usize, u32)]) -> StateBytes {
    let record = with_time(record_of(&stored().into()), time.to_bits());
    let with = |record, (flag, bits): &(usize, u32)| with_word(record, *flag, *bits);
    flags.iter().fold(record, with)
}

/// Each flag by itself and all together, and some where the frame is before the remembered time: 6, which no reset lifts.
fn damaged_records() -> Vec<Record> {
    let wrong = FLAGS.into_iter().zip(WRONG.into_iter().cycle());
    let wrong: Vec<(usize, u32)> = wrong.collect();
    let mut records: Vec<StateBytes> = wrong
        .iter()
        .map(|flag| damaged(EARLIER, &[*flag]))
        .collect();
    records.push(damaged(EARLIER, &wrong));
    records.extend([4, 24, 36].map(|flag| damaged(LATER, &[(flag, 2)])));
    records.push(damaged(f64::NAN, &[(10, 2)]));
    records.into_iter().flat_map(around_a_reset).collect()
}

/// With words behind the flags of all absent options.
fn littered(time: f64) -> StateBytes {
    let mut words = WORDS.into_iter().cycle();
    with_absent(remembering(time.to_bits()), || {
        words.next().expect("a word")
    })
}

/// Words of each absent option, and of all: they stay at 12 and in the reset, and the accepted frame clears them.
fn littered_records() -> Vec<Record> {
    let alone = |(flag, words): (usize, usize)| {
        let places = (flag + 1..=flag + words).zip(WORDS.into_iter().cycle());
        let clean = remembering(LATER.to_bits());
        places.fold(clean, |record, (word, bits)| with_word(record, word, bits))
    };
    let mut records: Vec<StateBytes> = OPTIONS.map(alone).into();
    // The last one's first frame is accepted already.
    records.extend([LATER, EARLIER].map(littered));
    records.into_iter().flat_map(around_a_reset).collect()
}

/// -0 and below: a frame at either zero is accepted.
fn times_below_zero() -> Vec<Record> {
    let mut records = Vec::new();
    for time in [-0.0, -f64::from_bits(1), -NOW, f64::MIN] {
        for zero in [0.0f64, -0.0] {
            records.push(Record::Given(remembering(time.to_bits())));
            records.push(Record::frame(&list().with_time(zero.to_bits())));
        }
    }
    records
}
