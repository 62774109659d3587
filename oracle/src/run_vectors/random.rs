//! Pseudo-random runs: on the states that scenes lead to and on any others, with frames that mostly move no axis.

use super::fixed_clocks::again;
use super::{Call, Record, Run};
use crate::clock::Remembering;
use crate::frame_checks::{LATEST, LENGTH};
use crate::frame_state::State;
use crate::frame_vectors::{random_state, Frame, STORED};
use crate::random::Random;
use crate::records::FLAGS;
use crate::scenes::{fling_list, scene_list, scenes_with_resets, Played};
use crate::settling_run::{MOST_FRAMES, MOVING_FLAGS, MOVING_NUMBERS};
use crate::tables::random_load;
use crate::words::from_bytes;

/// That many pseudo-random records: runs, a load now and then, and frames and resets on the record that is kept.
pub fn random_list(seed: u64, count: usize) -> Vec<Record> {
    let random = &mut Random::new(seed);
    let mut calls = scene_calls(random.long(), count / 2 + 1);
    calls.extend(arbitrary_calls(random.long(), count / 2 + 1));
    let mut calls = calls.into_iter().cycle();
    let mut on_kept = on_kept_record(random.long(), count / 8).into_iter().cycle();
    let mut record = |_| match random.below(32) {
        0 => Record::Load(random_load(random)),
        1..=4 => on_kept.next().expect("a record"),
        kind => {
            let run = on_any_record(random, &calls.next().expect("a run"));
            match kind % 2 {
                0 => Record::Run(run),
                _ => Record::RunBy(run),
            }
        }
    };
    (0..count).map(&mut record).collect()
}

/// A fresh state, and that many frames and resets of scenes on it.
fn on_kept_record(seed: u64, count: usize) -> Vec<Record> {
    let record = |played| match played {
        Played::Frame(bytes) => Record::Frame(bytes),
        Played::Reset => Record::Reset,
    };
    let mut records = vec![Record::Fresh];
    records.extend(scenes_with_resets(seed, count).into_iter().map(record));
    records
}

/// The run on a record: with anything in every other one's absent options and in the buffer, and at times with a damaged flag.
pub fn on_any_record(random: &mut Random, call: &Call) -> Run {
    let mut run = Run::of(call);
    // No run uses so many.
    run.used = (random.word() | 1 << 31).to_le_bytes();
    if random.below(2) == 0 {
        run = run.with_absent(|| random.word());
    }
    if random.below(64) == 0 {
        let flag = FLAGS[random.below(FLAGS.len())];
        run.state[4 * flag + random.below(4)] = 2 + random.below(254) as u8;
    }
    run
}

/// All of scenes or all of flings, with one short frame at the most.
fn frames(random: &mut Random, count: usize) -> Vec<Vec<u8>> {
    match random.below(2) {
        0 => scene_list(random.long(), count),
        _ => fling_list(random.long(), count),
    }
}

/// That many runs, each on the state that the frames of scenes before it led to.
pub fn scene_calls(seed: u64, count: usize) -> Vec<Call> {
    let random = &mut Random::new(seed);
    let mut state = Remembering::default();
    let mut call = |frame: Vec<u8>| {
        let call = random_call(random, state, &frame);
        state.frame(&frame);
        call
    };
    let frames = frames(&mut Random::new(!seed), count);
    frames.into_iter().map(&mut call).collect()
}

/// That many runs, each on a state of its own, at times one that is far out and fast.
pub fn arbitrary_calls(seed: u64, count: usize) -> Vec<Call> {
    let random = &mut Random::new(seed);
    let mut call = |frame: Vec<u8>| {
        let mut state = random_state(random, &frame);
        if random.below(16) == 0 {
            hurl(random, &mut state.egui);
        }
        random_call(random, state, &frame)
    };
    let frames = frames(&mut Random::new(!seed), count);
    frames.into_iter().map(&mut call).collect()
}

/// Numbers near the largest, so that a frame or the one after it leaves the finite ones.
fn hurl(random: &mut Random, state: &mut State) {
    let far = |random: &mut Random| f32::MAX * (2.0 * random.unit() - 1.0) as f32;
    for d in 0..2 {
        state.vel[d] = far(random);
        if random.below(2) == 0 {
            state.offset[d] = far(random);
        }
        state.content_is_too_large[d] = true;
    }
}

fn random_call(random: &mut Random, state: Remembering, bytes: &[u8]) -> Call {
    let increment = increment(random, bytes);
    let mut frame = match random.below(8) {
        0 => bytes.to_vec(),
        _ => stilled(random, bytes, increment),
    };
    if random.below(128) == 0 {
        let near = 410 + random.below(15);
        frame.resize([near, random.below(STORED + 1)][random.below(2)], 0);
    }
    let call = Call {
        state,
        frame,
        increment,
        limit: limit(random),
    };
    match random.below(16) {
        0 => again(call),
        _ => call,
    }
}

/// The frame without what moves an axis, at times but for one word, and at times late; a short frame stays.
fn stilled(random: &mut Random, bytes: &[u8], increment: f64) -> Vec<u8> {
    if bytes.len() != LENGTH {
        return bytes.to_vec();
    }
    let words = from_bytes(bytes).try_into().expect("104 words");
    let zero = random.one_of(&[0, 0x8000_0000]);
    let mut frame = Frame::of(words)
        .with_all(MOVING_FLAGS.map(|(flag, _)| flag), 0)
        .with_all(MOVING_NUMBERS.map(|(number, _)| number), zero);
    if random.below(16) == 0 {
        frame = match random.below(12) {
            flag @ ..8 => frame.with(MOVING_FLAGS[flag].0, 1),
            delta => frame.with(MOVING_NUMBERS[delta - 8].0, random.word() >> 2),
        };
    }
    if random.below(16) == 0 {
        let late = LATEST - random.below(40) as f64 * increment;
        frame = frame.with_time(late.to_bits());
    }
    frame.bytes()
}

/// Mostly some frames, at times hundreds or thousands, and what no limit may be.
fn limit(random: &mut Random) -> u32 {
    let most = MOST_FRAMES;
    match random.below(256) {
        0..=1 => random.one_of(&[most - 1, most]),
        2..=5 => random.one_of(&[0, most + 1, u32::MAX]),
        6..=7 => random.word(),
        8..=11 => 1,
        12..=13 => 1 + random.below(most as usize) as u32,
        14..=33 => 1 + random.below(600) as u32,
        _ => 1 + random.below(60) as u32,
    }
}

/// Mostly a screen's or the frame's own length, also none, all that may be, and what may not.
fn increment(random: &mut Random, bytes: &[u8]) -> f64 {
    let ends = [0.0f64, -0.0, 1.0, -1.0, f64::NAN, f64::INFINITY];
    let end = ends[random.below(ends.len())];
    match random.below(32) {
        0..=1 => end,
        2 => f64::from_bits(
            end.to_bits()
                .wrapping_add(random.below(5) as u64)
                .wrapping_sub(2),
        ),
        3 => f64::from_bits(random.long()),
        // As long as the last times are apart, or less.
        4..=5 => random.unit() / 524_288.0,
        6..=11 => random.unit(),
        12..=19 => own_length(bytes),
        _ => [1.0 / 60.0, 0.016, 1.0 / 120.0, 0.1][random.below(4)],
    }
}

/// Word 51, `stable_dt`.
fn own_length(bytes: &[u8]) -> f64 {
    let dt = bytes.get(200..204).map_or(0.0, |word| {
        f32::from_le_bytes(word.try_into().expect("four bytes"))
    });
    f64::from(dt)
}
