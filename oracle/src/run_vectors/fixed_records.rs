//! Runs on records that no state gives: flags outside their values, words of absent options, other not-a-numbers than one.

use super::fixed_clocks::set_back;
use super::fixed_inside::{first_frames_refused, past_the_last_time, second_frames_refused};
use super::fixed_refusals::slips;
use super::lists::{list, moving, on_its_way, paced, NOW};
use super::{Call, Run};
use crate::records::{FLAGS, OPTIONS};
use crate::words::INF;

/// What no flag may be: a low bit of 1 or 0, with another bit.
pub const WRONG: [u32; 4] = [2, 0x0100, 0x0100_0001, 0x8000_0000];

/// Three not-a-numbers, of which the first is next to infinity.
const NANS: [u32; 3] = [0x7f80_0001, 0x7fc0_0001, 0xffff_ffff];

/// The high words of three such times.
const HIGH_NANS: [u32; 3] = [0x7ff0_0001, 0x7ff8_0000, 0xffff_ffff];

/// What absent options hold: numbers, and what would be 6 if it were there.
pub const WORDS: [u32; 4] = [0x42c8_0000, NANS[0], 0x0102_0304, NANS[2]];

/// Without the one option that every list here has after a frame.
fn bare(mut call: Call) -> Call {
    call.state.egui.interact_rect = None;
    call
}

/// A short run on a list that moves, without any option.
fn short() -> Call {
    bare(paced(moving(150.0, 90.0), list(), 3))
}

/// With words behind the flags of all absent options.
fn littered(call: Call) -> Run {
    let mut words = WORDS.into_iter().cycle();
    Run::of(&bare(call)).with_absent(|| words.next().expect("a word"))
}

/// Each flag outside its values.
pub fn damaged_flags() -> Vec<Run> {
    let wrong = FLAGS.into_iter().zip(WRONG.into_iter().cycle());
    let damaged = |(flag, bits)| Run::of(&short()).with(flag, bits);
    wrong.map(damaged).collect()
}

/// Runs that are refused by themselves, with a damaged flag: 1 to 5 go before it, and it goes before 9.
pub fn damaged_and_refused() -> Vec<Run> {
    let mut calls = refused_at_9();
    calls.push(paced(moving(INF, 90.0), list(), 3));
    calls.extend(slips().map(|(word, bits)| paced(short().state, list().with(word, bits), 3)));
    for length in [0, 415, 417] {
        let mut call = short();
        call.frame.resize(length, 0);
        calls.push(call);
    }
    let flags = [4, 24, 30, 36].into_iter().cycle();
    let damaged = |(call, flag): (&Call, usize)| Run::of(call).with(flag, 2);
    calls.iter().zip(flags).map(damaged).collect()
}

fn refused_at_9() -> Vec<Call> {
    let increment = f64::NAN;
    vec![
        paced(short().state, list().with(15, 1), 3),
        paced(short().state, list(), 0),
        Call {
            increment,
            ..short()
        },
    ]
}

/// Words of each absent option by itself, where frames are used and where the first is refused.
pub fn absent_options() -> Vec<Run> {
    let refused = bare(first_frames_refused().swap_remove(0));
    let mut runs = Vec::new();
    for run in [Run::of(&short()), Run::of(&refused)] {
        for (flag, words) in OPTIONS {
            let places = (flag + 1..=flag + words).zip(WORDS.into_iter().cycle());
            runs.push(places.fold(run.clone(), |run, (word, bits)| run.with(word, bits)));
        }
    }
    runs
}

/// Words of all absent options, with every end of a run.
pub fn absent_options_at_every_end() -> Vec<Run> {
    let mut calls = vec![
        paced(moving(150.0, 90.0), list(), 500),
        paced(moving(150.0, 90.0), list(), 1),
        paced(moving(150.0, 90.0), list().with(88, 0), 3),
        paced(moving(150.0, INF), list(), 3),
    ];
    calls.extend(refused_at_9());
    calls.push(set_back());
    calls.extend(first_frames_refused());
    calls.extend(second_frames_refused());
    let late = past_the_last_time().into_iter();
    let passed = late.filter(|call| call.answer().refusal == 3);
    calls.extend(passed.step_by(6));
    calls.into_iter().map(littered).collect()
}

/// In numbers, and by the high word in times: 6, and the bits stay.
pub fn not_a_numbers() -> Vec<Run> {
    let on_its_way = paced(on_its_way(150.0, 20.0, (NOW, NOW + 1.0)), list(), 3);
    let run = Run::of(&on_its_way);
    let at = |word: usize, bits: [u32; 3]| bits.map(|bits| run.clone().with(word, bits));
    let numbers = [0, 23, 15].map(|word| at(word, NANS));
    let times = [12, 14, 38].map(|word| at(word, HIGH_NANS));
    [numbers.as_flattened(), times.as_flattened()].concat()
}
