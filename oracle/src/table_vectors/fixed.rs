//! The fixed list.

use super::fixed_falls::falling_times;
use super::Record;
use crate::axis_calls::{LONGEST_DECAY, SHORTEST_DECAY};
use crate::axis_vectors::random_numbers::ENDS;
use crate::axis_vectors::scene::{Scene, PLAIN, RUBBER};
use crate::axis_vectors::Call;
use crate::frame_vectors::{example, Frame};
use crate::scenes::{fling_list, flings_with_resets, scenes_with_resets, Played};
use crate::tables::{bytes_of, good, refused, t_bytes, Refused};
use crate::words::{around, INF, LARGEST, NAN};

/// Of the tables and of the frames.
const SEED: u64 = 4;

/// Frames of flings under one table; those of a fall come after them.
const RUN: usize = 5;

/// Of the flings and scenes that are played twice: in both the clock is set back and reset, in the scenes with targets under way.
const SET_BACK: u64 = 43;

/// So many frames and resets of each.
const TWICE: usize = 40;

/// The fixed records.
pub fn fixed_list() -> Vec<Record> {
    let mut frames = fling_list(SEED, 400).into_iter().map(Record::Frame);
    let mut falls = falling_times();
    // Those of 11 first, each after a table that serves.
    let mut refused = refused().into_iter().rev();
    let mut list = calls();
    list.extend(frames.by_ref().take(RUN));
    list.extend(falls.next().into_iter().flatten());
    for table in good(SEED) {
        list.push(Record::Load(bytes_of(&table.table).to_vec()));
        list.extend(calls());
        list.extend(frames.by_ref().take(RUN));
        list.extend(falls.next().into_iter().flatten());
        let next = refused.by_ref().take(1);
        list.extend(next.flat_map(|refused| not_loading(refused, &mut frames)));
    }
    list.extend(refused.flat_map(|refused| not_loading(refused, &mut frames)));
    list.extend(changing(&mut frames));
    list.extend(t_lent_and_none());
    list
}

/// A load that is refused: T serves again, and not what served before.
fn not_loading(refused: Refused, frames: &mut impl Iterator<Item = Record>) -> Vec<Record> {
    let mut list = vec![Record::Load(refused.bytes)];
    list.extend(exps(&[-1.0, -17.0]));
    list.extend(frames.take(1));
    list
}

/// Calls that show the table that serves.
fn calls() -> Vec<Record> {
    let mut list = exps(&arguments());
    let steps = [coasts(), springs(), others()].concat();
    list.extend(steps.into_iter().map(Record::Step));
    list
}

/// Both zeros, where the entry changes, around where exp takes one halving more or is 0, and what is no exponent.
fn arguments() -> Vec<f32> {
    let plain = [
        0.0, -0.0, 1.0, INF, NAN, -0.015, -0.015_625, -1.0, -8.5, -17.0, -40.0, -79.0, -81.0, -INF,
    ];
    let ends = ENDS.iter().flat_map(|end| around(-end));
    plain.into_iter().chain(ends).collect()
}

fn exps(arguments: &[f32]) -> Vec<Record> {
    let bits = arguments.iter().map(|x| x.to_bits());
    bits.map(Record::Exp).collect()
}

/// Slow and fast, both ways, with exponents of every number of halvings.
fn coasts() -> Vec<Call> {
    let short = Scene {
        decay_time: SHORTEST_DECAY,
        stop_distance: 0.01,
        ..PLAIN
    };
    let long = Scene {
        decay_time: LONGEST_DECAY,
        ..PLAIN
    };
    let mut list = vec![
        PLAIN.step(150.0, 100.0, 0.016, false),
        PLAIN.step(0.3, -2000.5, 0.1, false),
        PLAIN.step(310.0, 77.7, 20.0, false),
        long.step(150.0, 2.5, 0.016, false),
    ];
    for dt in [0.01, 0.02, 0.05, 0.07, 0.1] {
        list.push(short.step(150.0, 900.0, dt, false));
        list.push(short.step(0.3, -LARGEST, dt, false));
    }
    list
}

/// From both sides, at rest, outwards and inwards, and for so long that it halves.
fn springs() -> Vec<Call> {
    let restless = Scene {
        stop_distance: 0.0,
        ..RUBBER
    };
    let mut list = Vec::new();
    for velocity in [0.0, 200.0, -3000.0] {
        list.push(RUBBER.step(340.0, velocity, 0.016, false));
        list.push(RUBBER.step(-25.3, velocity, 0.1, false));
    }
    for dt in [1.6, 1.7, 5.0, 7.0, 10.0] {
        list.push(restless.step(-25.3, 200.0, dt, false));
    }
    list
}

/// No time, a rest, a hold, a refusal, and an offset out of range.
fn others() -> Vec<Call> {
    vec![
        PLAIN.step(150.0, 100.0, 0.0, false),
        PLAIN.step(150.0, 0.5, 0.016, false),
        RUBBER.step(310.0, 90.0, 0.016, true),
        PLAIN.step(150.0, 100.0, NAN, false),
        PLAIN.step(LARGEST, LARGEST, 1.0, false),
    ]
}

/// Another table, or none, with every frame.
fn changing(frames: &mut impl Iterator<Item = Record>) -> Vec<Record> {
    let mut list = Vec::new();
    for table in good(SEED + 1) {
        list.push(Record::Load(bytes_of(&table.table).to_vec()));
        list.extend(frames.take(1));
        list.push(Record::Load(Vec::new()));
        list.extend(frames.take(1));
    }
    list
}

/// The same frames and resets from the same state under T lent and under no table.
fn t_lent_and_none() -> Vec<Record> {
    // Of each list the last one, which may be cut short, is left out.
    let flings = flings_with_resets(SET_BACK, TWICE + 1).into_iter();
    let scenes = scenes_with_resets(SET_BACK, TWICE + 1).into_iter();
    let mut played: Vec<Played> = flings.take(TWICE).collect();
    // The clock of the scenes begins at 0 too.
    played.push(Played::Reset);
    played.extend(scenes.take(TWICE));
    let mut list = Vec::new();
    for table in [t_bytes().to_vec(), Vec::new()] {
        list.extend([Record::Load(table), Record::Reset]);
        list.extend(clearing_frames().into_iter().map(Record::Frame));
        list.extend(played.iter().cloned().map(Record::from));
    }
    list
}

/// Frames that lead every state whose numbers are finite to one state: a press on each bar ends targets, a frame without one ends the
/// presses, and a wheel's turn by 0 clears that there was a bounce.
pub fn clearing_frames() -> Vec<Vec<u8>> {
    let frame = example()
        .with_all([1, 2, 15, 17, 19, 21, 48, 54], 1)
        .with_all([25, 39], 0)
        // Nothing is left of a velocity after a frame below -80, and what is 0 rests.
        .with_numbers(37, &[SHORTEST_DECAY, 1.0])
        .with_number(51, 0.1)
        .with_numbers(22, &[1.0, 1.0])
        .with_numbers(55, &[50.0, 50.0])
        .with(63, 2)
        .with_numbers(66, &[1.0, 1.0])
        .with_numbers(82, &[400.0, 400.0]);
    let pressed = [74, 79].into_iter().fold(frame, |frame: Frame, word| {
        frame.with(word, 1).with_numbers(word + 1, &[0.0, 0.0])
    });
    [pressed, frame, frame].map(|frame| frame.bytes()).into()
}
