//! Runs that rest, that their limit ends, and that no limit lets rest.

use super::lists::{list, moving, on_its_way, paced, restless, with_band, END, NOW, SCREEN};
use super::Call;
use crate::frame_state::State;
use crate::frame_vectors::Frame;
use crate::settling_run::MOST_FRAMES;

/// Slow and fast, both ways; those of thousands reach an end, where a band bounces.
const VELOCITIES: [f32; 10] = [
    0.3, 0.31, 10.0, -10.0, 120.5, -700.0, 1_000.0, -5_000.0, 20_000.0, -1e6,
];

/// Flings from the middle.
pub fn flings() -> Vec<Call> {
    let mut calls = Vec::new();
    for frame in [list(), with_band()] {
        for decay_time in [0.325, 2.0, 1.0 / 1024.0] {
            let frame = frame.with_number(37, decay_time);
            let states = VELOCITIES.map(|velocity| moving(150.0, velocity));
            calls.extend(states.map(|state| paced(state, frame, MOST_FRAMES)));
        }
    }
    calls
}

/// Past an end, let go with each velocity; without a band it is put back at once.
pub fn springs() -> Vec<Call> {
    let mut calls = Vec::new();
    for offset in [-50.0, -0.01, END + 0.2, END + 40.0] {
        for velocity in [0.0, 300.0, -2_000.0] {
            let state = moving(offset, velocity);
            calls.push(paced(state, with_band(), MOST_FRAMES));
            calls.push(paced(state, list(), MOST_FRAMES));
        }
    }
    // A trackpad's fingers hold it where it is: it rests with its velocity.
    let held = with_band().with(63, 3).with(54, 1);
    let held = held.with_numbers(55, &[50.0, 50.0]);
    calls.push(paced(moving(END + 40.0, 90.0), held, MOST_FRAMES));
    calls
}

/// At rest; fresh, where the bar opens first; stuck to its end; both axes; after a bounce of momentum.
pub fn others_that_rest() -> Vec<Call> {
    let wide = with_band().with(1, 1).with_number(82, 900.0);
    let mut both = moving(150.0, -700.0);
    (both.vel[0], both.max_offset[0]) = (300.0, 700.0);
    both.content_is_too_large[0] = true;
    let mut bounced = moving(END + 5.0, 800.0);
    bounced.bounced_this_momentum = [true; 2];
    let mut pressed = moving(150.0, 0.0);
    pressed.scroll_start_offset_from_top_left[1] = Some(7.0);
    [
        (moving(150.0, 0.0), list()),
        (State::default(), list().with(9, 1)),
        (State::default(), list().with(25, 1)),
        (both, wide),
        (bounced, with_band().with(63, 4)),
        (pressed, list()),
    ]
    .map(|(state, frame)| paced(state, frame, MOST_FRAMES))
    .into()
}

/// Targets under way, of which some are there soon, at once or too late; a clock by tenths is behind by a rounding.
pub fn targets() -> Vec<Call> {
    let spans = [
        (NOW, NOW + 0.5),
        (NOW - 1.0, NOW - 0.5),
        (NOW + 0.25, NOW + 0.75),
        (NOW, NOW),
        (NOW + 0.5, NOW),
    ];
    let mut calls = Vec::new();
    for span in spans {
        for goal in [250.0, 150.5, -20.0] {
            calls.push(paced(on_its_way(150.0, goal, span), list(), 600));
        }
    }
    for increment in [0.1, 0.3, 1.0, 1e-9] {
        let state = on_its_way(150.0, 20.0, (0.3, 2.0));
        let early = list().with_time(0.0f64.to_bits());
        calls.push(Call {
            increment,
            ..paced(state, early, 90)
        });
    }
    calls
}

/// One frame less than a fling takes, as many, and one more.
pub fn limits_around_rest() -> Vec<Call> {
    let mut calls = Vec::new();
    for (frame, velocity) in [(list(), 40.0), (with_band(), 3_000.0)] {
        let fling = paced(moving(150.0, velocity), frame, MOST_FRAMES);
        let used = fling.answer().used;
        calls.extend([1, used - 1, used, used + 1].map(|limit| Call {
            limit,
            ..fling.clone()
        }));
    }
    calls
}

/// Nothing of these ever rests: no velocity is too slow, no time passes, a target is ahead of the clock or the clock stands.
pub fn restless_runs() -> Vec<Call> {
    let no_time = list().with_number(51, 0.0);
    let ahead = on_its_way(150.0, 20.0, (1e9, 2e9));
    let soon = on_its_way(150.0, 20.0, (NOW, NOW + 0.5));
    let runs: [(State, Frame, f64); 6] = [
        (moving(120.0, 90.0), restless(), SCREEN),
        (moving(END + 9.0, -90.0), restless().with(39, 1), SCREEN),
        (moving(150.0, 90.0), no_time, 0.0),
        (moving(150.0, -90.0), no_time, -0.0),
        (ahead, list(), SCREEN),
        (soon, list(), 0.0),
    ];
    let mut calls = Vec::new();
    for (state, frame, increment) in runs {
        for limit in [1, 2, 60, 777, MOST_FRAMES - 1, MOST_FRAMES] {
            calls.push(Call {
                increment,
                ..paced(state, frame, limit)
            });
        }
    }
    calls
}
