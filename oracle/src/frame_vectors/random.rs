//! Pseudo-random calls: good frames with one to three words replaced, and all sorts of states.

use super::good::{bare, example, full};
use super::places::OPTIONS;
use super::random_words::{mutated, number};
use super::states::{doubles, flags, singles, stored};
use super::{Call, Frame, STORED};
use crate::clock::{time_of, Remembering};
use crate::frame_state::State;
use crate::random::Random;

/// That many pseudo-random calls.
pub fn random_list(seed: u64, count: usize) -> Vec<Call> {
    let mut random = Random::new(seed);
    (0..count).map(|_| random_call(&mut random)).collect()
}

fn random_call(random: &mut Random) -> Call {
    let good = good_frame(random);
    let mutations = 1 + random.below(3);
    let frame = (0..mutations).fold(good, |frame, _| mutated(random, frame));
    let mut bytes = frame.bytes();
    if random.below(32) == 0 {
        let near = 410 + random.below(15);
        let length = [near, random.below(STORED + 1)][random.below(2)];
        bytes.resize(length, random.word() as u8);
    }
    let state = random_state(random, &bytes);
    Call::new(bytes, state)
}

/// A good frame, in most cases with some options on and others off; half of those off hold garbage.
pub(crate) fn good_frame(random: &mut Random) -> Frame {
    match random.below(8) {
        0 => return bare(),
        1 => return full(),
        2 => return example(),
        _ => {}
    }
    let mut frame = full();
    for option in OPTIONS {
        if random.below(2) == 0 {
            frame = frame.with(option.flag, 0);
            if random.below(2) == 0 {
                let garbage = option.words.clone();
                frame = garbage.fold(frame, |frame, word| frame.with(word, random.word()));
            }
        }
    }
    frame
}

/// A state for that frame, and what it remembers.
pub fn random_state(random: &mut Random, frame: &[u8]) -> Remembering {
    Remembering {
        egui: egui_state(random),
        time: remembered(random, frame),
    }
}

/// Mostly a time at or before the frame's, in a few cases a later one, or none that a frame can have.
fn remembered(random: &mut Random, frame: &[u8]) -> f64 {
    let now = time_of(frame).unwrap_or(0.0);
    let [before, after] = [now.next_down(), now.next_up()];
    match random.below(32) {
        0 => [f64::NAN, f64::INFINITY, f64::NEG_INFINITY][random.below(3)],
        1 => f64::from_bits(0x7ff0_0000_0000_0000 | random.long()),
        2 => [0.0, -0.0][random.below(2)],
        3 => -random.unit() * 1e9,
        4 => now + random.unit() * 1e4,
        5 => now + random.unit() / 60.0,
        6 | 7 => [before, after][random.below(2)],
        8..=12 => now,
        13..=18 => random.unit() * now,
        _ => now - random.unit() / 10.0,
    }
}

/// Mostly a good state; in one case of four a number of any kind is put into it.
fn egui_state(random: &mut Random) -> State {
    let mut state = match random.below(4) {
        0 => State::default(),
        1 => stored(),
        _ => other_state(random),
    };
    if random.below(4) == 0 {
        spoil(random, &mut state);
    }
    state
}

/// A state with other flags, some options and other finite numbers.
fn other_state(random: &mut Random) -> State {
    let mut state = stored();
    for axis in 0..2 {
        if random.below(2) == 0 {
            state.offset_target[axis] = None;
        }
        if random.below(2) == 0 {
            state.scroll_start_offset_from_top_left[axis] = None;
        }
    }
    if random.below(2) == 0 {
        state.interact_rect = None;
    }
    for flag in flags(&mut state) {
        *flag = random.below(2) == 0;
    }
    for x in singles(&mut state) {
        *x = [f32::from_bits(number(random)), *x][random.below(2)];
        if !x.is_finite() {
            *x = f32::MAX;
        }
    }
    for x in doubles(&mut state) {
        *x = [random.unit() * 1e10 - 1e9, *x][random.below(2)];
    }
    state
}

/// One number of the state replaced, in most cases by one that is not finite.
fn spoil(random: &mut Random, state: &mut State) {
    let mut long = doubles(state);
    if !long.is_empty() && random.below(3) == 0 {
        let place = random.below(long.len());
        // Exponents at the top of the finite ones, and above.
        let top = 0x7fe0_0000_0000_0000 | random.long() >> 1 & 0x001f_ffff_ffff_ffff;
        let bits = [top, random.long(), 0x7ff0_0000_0000_0000][random.below(3)];
        *long[place] = f64::from_bits(bits ^ random.long() << 63);
        return;
    }
    let mut short = singles(state);
    let place = random.below(short.len());
    let top = 0x7f00_0000 | random.word() >> 1 & 0x00ff_ffff;
    let bits = [top, random.word(), 0x7f80_0000][random.below(3)];
    *short[place] = f32::from_bits(bits ^ random.word() << 31);
}
