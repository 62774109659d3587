//! Fixed calls of step.

use super::scene::{Scene, PLAIN, RUBBER};
use super::List;
use crate::axis_calls::{LIMIT, LONGEST_DECAY, SHORTEST_DECAY};
use crate::words::{around, away, LARGEST, SMALLEST};

/// A frame of 60 in a second, nearly.
const FRAME: f32 = 0.016;

/// Document 01's reading of a step.
pub(super) fn readings(list: &mut List) {
    list.add(RUBBER.step(310.0, 0.0, FRAME, true));
}

/// Both directions under every size of decay_time, for no time up to a time after which nothing is left.
pub(super) fn coasting(list: &mut List) {
    for decay_time in [SHORTEST_DECAY, 0.1, 1.0, LONGEST_DECAY] {
        let scene = Scene {
            decay_time,
            stop_distance: 0.01,
            ..PLAIN
        };
        for dt in [0.0, FRAME, 20.0] {
            list.add(scene.step(150.0, 100.0, dt, false));
            list.add(scene.step(0.3, -250.5, dt, false));
        }
        list.add(scene.step(310.0, 77.7, 0.1, false));
    }
}

/// Exponents at which exp takes one halving more, and -80, below which the velocity becomes a zero of its sign.
pub(super) fn ends_of_the_exponent(list: &mut List) {
    for end in [16.0, 32.0, 64.0, 80.0] {
        for dt in around(end) {
            list.add(PLAIN.step(100.0, -50.0, dt, false));
        }
    }
    let short = Scene {
        decay_time: SHORTEST_DECAY,
        stop_distance: 0.0,
        ..PLAIN
    };
    for dt in around(0.015625) {
        list.add(short.step(100.0, 50.0, dt, false));
    }
    list.add(short.step(100.0, 1.0, LIMIT, false));
    list.add(PLAIN.step(100.0, 50.0, SMALLEST, false));
}

/// Short decay times and long frames up to 0.1, with exponents down to -102.4; down to -80 fast enough that a velocity stays.
pub(super) fn short_decays(list: &mut List) {
    let short = Scene {
        decay_time: SHORTEST_DECAY,
        stop_distance: 0.01,
        ..PLAIN
    };
    let longer = Scene {
        decay_time: 0.0015,
        ..short
    };
    for dt in [0.01, 0.02, 0.05, 0.07, 0.1] {
        list.add(short.step(150.0, 900.0, dt, false));
        list.add(short.step(0.3, -LARGEST, dt, false));
        list.add(longer.step(310.0, -900.0, dt, false));
    }
}

/// A remaining distance around stop_distance, and around the infinite: a rest leaves the offset.
pub(super) fn resting(list: &mut List) {
    for velocity in around(1.0) {
        list.add(PLAIN.step(150.0, velocity, FRAME, false));
        list.add(PLAIN.step(150.0, -velocity, FRAME, false));
    }
    let long = Scene {
        decay_time: LONGEST_DECAY,
        ..PLAIN
    };
    let last = LARGEST / LONGEST_DECAY;
    for velocity in [last, away(last, 1), LARGEST] {
        list.add(long.step(150.0, velocity, FRAME, false));
        list.add(long.step(-20.0, -velocity, FRAME, false));
    }
    list.add(PLAIN.step(150.0, LARGEST, FRAME, false));
    let wide = Scene {
        stop_distance: LIMIT,
        ..PLAIN
    };
    list.add(wide.step(150.0, away(LIMIT, -1), FRAME, false));
    list.add(wide.step(150.0, LIMIT, FRAME, false));
    list.add(PLAIN.step(400.0, 0.5, FRAME, false));
}

/// Without a stop_distance there is no rest; an offset of -0 becomes +0; a rest gives the velocity +0.
pub(super) fn zeros(list: &mut List) {
    for stop_distance in [0.0, -0.0, 1.0] {
        let scene = Scene {
            stop_distance,
            ..PLAIN
        };
        list.add(scene.step(-0.0, 0.0, FRAME, false));
        list.add(scene.step(-0.0, -0.0, FRAME, false));
    }
    let scene = Scene {
        stop_distance: 0.0,
        ..PLAIN
    };
    list.add(scene.step(0.0, SMALLEST, FRAME, false));
    list.add(scene.step(-0.0, -SMALLEST, 1.0, false));
    list.add(scene.step(150.0, 20.0, -0.0, false));
}

/// From both sides, at rest, outwards and inwards, up to an exponent of -16 and a halving beyond.
pub(super) fn springing(list: &mut List) {
    for velocity in [0.0, 200.0, -200.0] {
        list.add(RUBBER.step(340.0, velocity, FRAME, false));
        list.add(RUBBER.step(-25.3, velocity, FRAME, false));
        list.add(RUBBER.step(340.0, velocity, 1.6, false));
        list.add(RUBBER.step(-25.3, velocity, 1.7, false));
    }
    list.add(RUBBER.step(310.0, 3000.0, FRAME, false));
    list.add(RUBBER.step(-10.0, 3000.0, 0.1, false));
}

/// A spring that never settles, at exponents of every number of halvings and one step around their ends.
pub(super) fn springing_for_long(list: &mut List) {
    let restless = Scene {
        stop_distance: 0.0,
        ..RUBBER
    };
    for end in [1.6, 3.2, 6.4, 8.0] {
        for dt in around(end) {
            list.add(restless.step(-25.3, 200.0, dt, false));
        }
    }
    for dt in [1.0, 2.0, 5.0, 7.0, 10.0] {
        list.add(restless.step(340.0, -200.0, dt, false));
        // So far out and so fast that down to -80 it does not settle.
        list.add(RUBBER.step(1e30, 1e36, dt, false));
        list.add(RUBBER.step(-1e33, -1e35, dt, false));
    }
}

/// Numbers whose last bit shows the order of the steps and their rounding.
pub(super) fn roundings(list: &mut List) {
    for (offset, velocity, dt) in [
        (-39.8, -627.3, 0.0374),
        (-38.9, -73.8, 0.0272),
        (-35.3, -49.2, 0.0272),
        (-34.8, 233.7, 0.0374),
        (-8.3, -738.3, 0.0374),
        (317.3, -123.4, 0.0137),
    ] {
        list.add(RUBBER.step(offset, velocity, dt, false));
    }
    for (decay_time, dt) in [(0.3, 0.038), (0.9, 0.044), (0.28, 0.045)] {
        let scene = Scene {
            decay_time,
            ..PLAIN
        };
        list.add(scene.step(10.1, 123.4, dt, false));
    }
}

/// Both the distance and the velocity have to be small, strictly; without a stop_distance it never settles.
pub(super) fn settling(list: &mut List) {
    for offset in around(301.0) {
        list.add(RUBBER.step(offset, 0.0, 0.0, false));
    }
    for offset in around(-1.0) {
        list.add(RUBBER.step(offset, -0.0, -0.0, false));
    }
    for velocity in around(10.0) {
        list.add(RUBBER.step(300.5, velocity, 0.0, false));
        list.add(RUBBER.step(-0.5, -velocity, 0.0, false));
    }
    list.add(RUBBER.step(300.5, 50.0, 0.002, false));
    list.add(RUBBER.step(310.0, 19.05, FRAME, false));
    list.add(RUBBER.step(away(300.0, 1), 0.0, FRAME, false));
    list.add(RUBBER.step(-SMALLEST, 0.0, FRAME, false));
    let restless = Scene {
        stop_distance: 0.0,
        ..RUBBER
    };
    list.add(restless.step(310.0, 100.0, 2.0, false));
    list.add(restless.step(-10.0, -100.0, 2.0, false));
    list.add(restless.step(-SMALLEST, 0.0, FRAME, false));
}

/// A hold matters only beyond an edge and with the rubber band on; inside and at the edges it coasts.
pub(super) fn holding(list: &mut List) {
    for offset in [-10.0, -0.0, 150.0, 300.0, 310.0] {
        list.add(RUBBER.step(offset, 90.0, FRAME, true));
        list.add(PLAIN.step(offset, -90.0, FRAME, true));
    }
    list.add(RUBBER.step(-0.0, 90.0, FRAME, false));
    list.add(RUBBER.step(300.0, 90.0, FRAME, false));
    list.add(RUBBER.step(310.0, -0.0, 0.0, true));
}
