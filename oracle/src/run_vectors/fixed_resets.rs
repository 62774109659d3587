//! Frames and resets on the one record that a list keeps: what is remembered, and what is not.

use super::fixed_refusals::slips;
use super::lists::{list, pressed, NOW};
use super::Record;
use crate::frame_vectors::Frame;

fn at(frame: Frame, time: f64) -> Record {
    Record::frame(&frame.with_time(time.to_bits()))
}

/// On the zeros that are there at first, on a fresh state, and on one that has run.
pub fn resets() -> Vec<Record> {
    vec![
        Record::Reset,
        at(list(), NOW),
        Record::Reset,
        Record::Fresh,
        Record::Reset,
        at(list(), NOW),
        at(list(), NOW - 1.0),
        Record::Reset,
        at(list(), NOW - 1.0),
        Record::Reset,
        Record::Reset,
        at(list(), 0.0),
    ]
}

/// Equal times pass, one step back does not; both zeros are one time, and the accepted one's bits are remembered.
pub fn steps_of_time() -> Vec<Record> {
    let mut records = vec![Record::Fresh];
    let near = [NOW, NOW, NOW.next_down(), NOW.next_up(), NOW];
    records.extend(near.map(|time| at(list(), time)));
    records.push(Record::Fresh);
    records.extend([0.0, -0.0, -0.0, 0.0, -0.0].map(|time| at(list(), time)));
    records.push(Record::Reset);
    let least = f64::from_bits(1);
    records.extend([-0.0, least, 0.0, -0.0, least].map(|time| at(list(), time)));
    records
}

/// Every number that a frame can be refused with on a good record, later and earlier than what is remembered, which stays.
pub fn refusals() -> Vec<Record> {
    let mut frames: Vec<Frame> = slips().map(|(word, bits)| list().with(word, bits)).into();
    // A new press on a bar that is too short for its handle: 7.
    frames.push(pressed(10.0, 12.0, 50.0));
    let mut records = vec![Record::Fresh, at(list(), NOW)];
    for time in [NOW + 1.0, NOW - 1.0] {
        records.extend(frames.iter().map(|frame| at(*frame, time)));
        records.extend([0, 211, 415, 417].map(|length| cut(list(), time, length)));
    }
    // A press that is held has no finite way on a bar almost without length: 8.
    records.push(at(pressed(1e-40, 0.0, 0.0), NOW));
    records.extend([NOW + 1.0, NOW - 1.0].map(|time| at(pressed(1e-40, 0.0, 50.0), time)));
    records.extend([at(list(), NOW), at(list(), NOW.next_down())]);
    records
}

/// The frame at that time with another length, by zeros if it is longer.
fn cut(frame: Frame, time: f64, length: usize) -> Record {
    let mut bytes = frame.with_time(time.to_bits()).bytes();
    bytes.resize(length, 0);
    Record::Frame(bytes)
}
