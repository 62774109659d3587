//! Runs that are refused before any frame, and the nearest that are not.

use super::lists::{list, moving, on_its_way, paced, restless};
use super::Call;
use crate::frame_vectors::Frame;
use crate::settling_run::{MOST_FRAMES, MOVING_FLAGS, MOVING_NUMBERS};
use crate::words::{INF, NAN, SMALLEST};

/// A short run on a moving list.
fn short(frame: Frame) -> Call {
    paced(moving(150.0, 90.0), frame, 3)
}

/// A word and the bits that one of checks 2 to 5 turns back.
pub fn slips() -> [(usize, u32); 8] {
    [
        (1, 2),
        (63, 5),
        (40, NAN.to_bits()),
        (87, INF.to_bits()),
        (82, (-1.0f32).to_bits()),
        (71, 2.0f32.to_bits()),
        (37, 0),
        (88, 0),
    ]
}

/// Each of 1 to 6 by itself, and ahead of 9 on every kind of ground.
pub fn refused_before_9() -> Vec<Call> {
    let mut calls = Vec::new();
    for length in [0, 1, 412, 415, 417, 424] {
        let mut call = short(list());
        call.frame.resize(length, 0);
        calls.push(call);
    }
    calls.extend(slips().map(|(word, bits)| short(list().with(word, bits))));
    calls.extend(broken_states());
    for call in calls.clone() {
        let limit = 0;
        calls.push(Call {
            limit,
            ..call.clone()
        });
        let increment = f64::NAN;
        calls.push(Call { increment, ..call });
    }
    for (word, bits) in slips() {
        calls.push(short(list().with(word, bits).with(15, 1)));
    }
    calls
}

/// Numbers that are not finite, each in another field; the frame is whole, or has a number that goes before 6.
fn broken_states() -> Vec<Call> {
    let good = moving(150.0, 90.0);
    let mut broken = [good; 6];
    broken[0].offset[0] = NAN;
    broken[1].vel[1] = INF;
    broken[2].max_offset[1] = -INF;
    broken[3].scroll_start_offset_from_top_left[0] = Some(NAN);
    let endless = on_its_way(0.0, 1.0, (0.0, f64::INFINITY));
    broken[4].offset_target = endless.offset_target;
    let timeless = on_its_way(0.0, 1.0, (f64::NAN, 0.0));
    broken[5].offset_target = timeless.offset_target;
    let mut calls: Vec<Call> = broken.map(|state| paced(state, list(), 3)).into();
    let slipped = slips().map(|(word, bits)| paced(broken[0], list().with(word, bits), 3));
    calls.extend(slipped);
    calls.push(paced(broken[0], list().with(61, 1), 3));
    calls
}

/// Around both ends of what a limit may be.
pub fn limits() -> Vec<Call> {
    let limits = [
        0,
        1,
        2,
        MOST_FRAMES - 1,
        MOST_FRAMES,
        MOST_FRAMES + 1,
        1 << 16,
        1 << 31,
        u32::MAX,
    ];
    limits
        .map(|limit| paced(moving(150.0, 90.0), restless(), limit))
        .into()
}

/// Around both ends of what an increment may be, both zeros, and what is no number.
pub fn increments() -> Vec<Call> {
    let least = f64::from_bits(1);
    let steps = [0.0, least, 0.5, 1.0, f64::MAX, f64::INFINITY];
    let both = steps.into_iter().flat_map(|step| [step, -step]);
    let beside = [1.0f64.to_bits() - 1, 1.0f64.to_bits() + 1].map(f64::from_bits);
    // A quiet one of either sign, and the one whose bits are next to infinity.
    let none = [
        0x7ff8_0000_0000_0000,
        0xfff8_0000_0000_0000,
        0x7ff0_0000_0000_0001,
    ];
    let all = both.chain(beside).chain(none.map(f64::from_bits));
    let paced_by = |increment| Call {
        increment,
        ..short(list())
    };
    let mut calls: Vec<Call> = all.map(paced_by).collect();
    // A clock at -0 is at 0, and stays where nothing is added.
    let minus_zero = short(list().with_time((-0.0f64).to_bits()));
    calls.extend([0.0, -0.0, 0.5].map(|increment| Call {
        increment,
        ..minus_zero.clone()
    }));
    calls
}

/// Each word that moves an axis by itself, also where nothing heeds it; a delta of either zero moves none.
pub fn moving_words() -> Vec<Call> {
    let good = |frame: Frame| {
        frame
            .with_numbers(95, &[1.0, 0.0, 1.0])
            .with_numbers(102, &[1.0, 0.0, 1.0])
    };
    let heeding = list()
        .with_all([19, 21, 48, 49, 54], 1)
        .with(20, 2)
        .with_numbers(22, &[1.0, 1.0])
        .with_numbers(55, &[50.0, 50.0]);
    let mut calls = Vec::new();
    // The second list heeds nothing: it scrolls in no direction and is not enabled.
    for frame in [good(heeding), good(list()).with(2, 0)] {
        calls.extend(MOVING_FLAGS.map(|(flag, _)| short(frame.with(flag, 1))));
        for (delta, _) in MOVING_NUMBERS {
            let numbers = [-0.0, SMALLEST, -SMALLEST, 5.0, -5.0];
            calls.extend(numbers.map(|x| short(frame.with_number(delta, x))));
        }
    }
    calls
}

/// Words that stand beside those, and what absent options hold: none of them moves an axis.
pub fn words_that_do_not_move() -> Vec<Call> {
    let mut calls = Vec::new();
    for word in [57, 58, 59, 60] {
        calls.push(short(list().with_number(word, 70.0)));
    }
    for word in [72, 73, 77, 78] {
        calls.push(short(list().with(word, 1)));
    }
    calls.extend([1, 2, 3, 4].map(|source| short(list().with(63, source))));
    let absent = [16, 18, 75, 76, 80, 81]
        .into_iter()
        .chain(92..=97)
        .chain(99..=104);
    calls.push(short(list().with_all(absent, u32::MAX)));
    calls
}
