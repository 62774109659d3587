//! Frames at times that fall, under each table: 12, a reset, and the same frame once more.

use super::Record;
use crate::frame_checks::LATEST;
use crate::frame_vectors::{example, Frame};

/// From a time that no fling is after to one before it: to either zero, by one step, and by some way.
fn falls() -> [(f64, f64); 5] {
    [
        (LATEST, 0.0),
        (LATEST, LATEST.next_down()),
        (1e5, 10.0),
        (1e5, -0.0),
        (1e5f64.next_up(), 1e5),
    ]
}

/// The groups, one fall after another.
pub fn falling_times() -> impl Iterator<Item = Vec<Record>> {
    falls().into_iter().cycle().map(fall)
}

/// Once a list is seen to be too large, a finger that was on it lets go at an earlier time. The last reset is for the frames that follow.
fn fall((time, earlier): (f64, f64)) -> Vec<Record> {
    let flung = at(flung(), earlier);
    vec![
        at(large(), time),
        flung.clone(),
        Record::Reset,
        flung,
        Record::Reset,
    ]
}

fn at(frame: Frame, time: f64) -> Record {
    Record::Frame(frame.with_time(time.to_bits()).bytes())
}

/// A list that is too large on both axes, and does not stick.
fn large() -> Frame {
    example()
        .with_all([1, 2, 48, 49], 1)
        .with(20, 2)
        .with(25, 0)
        .with_numbers(82, &[900.0, 1200.0])
}

/// The same put in its middle, from where it coasts by an exponent of about -0.05.
fn flung() -> Frame {
    large()
        .with_all([15, 17, 62], 1)
        .with_number(16, 400.0)
        .with_number(18, 600.0)
        .with_number(51, 0.05)
        .with_numbers(59, &[300.0, -900.0])
}
