//! Checks 4 and 5: pairs, signs, factors, and the style of the kinetics.

use super::edges::{AROUND_ZERO, LIMIT, LONGEST_DECAY, SHORTEST_DECAY};
use super::good::{bare, full, only};
use super::places::{governing, DECAY_TIME, FACTORS, NOT_NEGATIVE, PAIRS, SPEEDS, STOP_DISTANCE};
use super::List;
use crate::words::{around, away, INF, SMALLEST};

/// Starts and ends: in order, equal, reversed; by one step and by as much as can be.
fn starts_and_ends() -> [(f32, f32); 11] {
    let next = away(7.0, 1);
    [
        (7.0, 7.0),
        (7.0, next),
        (next, 7.0),
        (8.0, 7.0),
        (-8.0, -7.0),
        (-7.0, -8.0),
        (0.0, -0.0),
        (-0.0, 0.0),
        (0.0, -SMALLEST),
        (-SMALLEST, -0.0),
        (-LIMIT, LIMIT),
    ]
}

pub fn pairs(list: &mut List) {
    for (start, end) in PAIRS {
        for (from, to) in starts_and_ends() {
            list.frame(full().with_number(start, from).with_number(end, to));
        }
        // With every other option off the pair is checked all the same.
        let frame = governing(end).map_or(bare(), |option| only(&option));
        list.frame(frame.with_number(start, 7.0).with_number(end, 6.0));
    }
}

pub fn signs(list: &mut List) {
    for word in NOT_NEGATIVE {
        list.numbers(bare(), word, &AROUND_ZERO);
        list.numbers(full(), word, &[-SMALLEST]);
    }
}

pub fn factors(list: &mut List) {
    for word in FACTORS {
        list.numbers(bare(), word, &AROUND_ZERO);
        list.numbers(bare(), word, &around(1.0));
        list.numbers(full(), word, &[away(1.0, 1)]);
    }
}

pub fn decay_time(list: &mut List) {
    for frame in [bare(), full()] {
        list.numbers(frame, DECAY_TIME, &around(SHORTEST_DECAY));
        list.numbers(frame, DECAY_TIME, &around(LONGEST_DECAY));
    }
    let inside = -SHORTEST_DECAY;
    list.numbers(
        bare(),
        DECAY_TIME,
        &[0.0, -0.0, SMALLEST, inside, 1.0, -1.0],
    );
}

pub fn stop_distance(list: &mut List) {
    for frame in [bare(), full()] {
        list.numbers(frame, STOP_DISTANCE, &AROUND_ZERO);
    }
}

/// Points per second; only where its option is on, with the other options off too.
pub fn speeds(list: &mut List) {
    for word in SPEEDS {
        let alone = governing(word).map_or(bare(), |option| only(&option));
        for frame in [alone, full()] {
            list.numbers(frame, word, &AROUND_ZERO);
            list.numbers(frame, word, &[INF]);
        }
    }
}
