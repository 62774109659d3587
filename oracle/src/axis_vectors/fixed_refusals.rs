//! Fixed calls: each refusal at each number that it covers, and their order.

use super::place::{DECAY_TIME, EXTENT, MAX, MIN, OFFSET, STOP_DISTANCE};
use super::scene::{Scene, Wheel, PLAIN, RUBBER, SCROLL};
use super::{Call, List};
use crate::axis_calls::{LIMIT, LONGEST_DECAY, SHORTEST_DECAY};
use crate::words::{away, INF, LARGEST, NAN, NEGATIVE_NAN, SMALLEST};

/// One accepted call of each kind.
fn accepted() -> [Call; 3] {
    one_of_each_kind(RUBBER)
}

fn one_of_each_kind(scene: Scene) -> [Call; 3] {
    [
        scene.drag(150.0, 8.0),
        scene.step(150.0, 40.0, 0.016, false),
        scene.wheel(Wheel {
            bounced: true,
            ..SCROLL
        }),
    ]
}

/// Refusal 3: no number, both infinities, the limit and one step beyond it, their sign by turns.
pub(super) fn numbers_out_of_range(list: &mut List) {
    let own = [MIN, MAX, EXTENT, DECAY_TIME, STOP_DISTANCE];
    for (turn, call) in accepted().iter().enumerate() {
        for (index, place) in own.iter().chain(call.kind.moves()).enumerate() {
            let sign = [-1.0, 1.0][(turn + index) % 2];
            for x in [NAN, INF, -INF, sign * LIMIT, sign * away(LIMIT, 1)] {
                list.add(call.with(*place, x));
            }
        }
    }
}

/// Refusal 4: an end one step below the start, but not an equal one, nor zeros of both signs.
pub(super) fn reversed_bounds(list: &mut List) {
    for (min, max) in [
        (0.0, -0.0),
        (0.0, -SMALLEST),
        (5.0, 5.0),
        (5.0, away(5.0, -1)),
    ] {
        for call in one_of_each_kind(Scene { min, max, ..RUBBER }) {
            list.add(call);
        }
    }
}

/// Refusal 4: a negative dt, but not -0; a negative extent passes.
pub(super) fn negative_times(list: &mut List) {
    for call in accepted() {
        for x in [-0.0, -SMALLEST, -0.016] {
            if let Some(place) = call.kind.time() {
                list.add(call.with(place, x));
            }
        }
        list.add(call.with(EXTENT, -SMALLEST));
    }
}

/// Refusal 5: around both ends of decay_time and around a stop_distance of 0.
pub(super) fn styles_out_of_range(list: &mut List) {
    for call in accepted() {
        let below = [0.0, away(SHORTEST_DECAY, -1)];
        let above = [LONGEST_DECAY, away(LONGEST_DECAY, 1)];
        for x in below.into_iter().chain([SHORTEST_DECAY]).chain(above) {
            list.add(call.with(DECAY_TIME, x));
        }
        for x in [0.0, -0.0, -SMALLEST] {
            list.add(call.with(STOP_DISTANCE, x));
        }
    }
}

/// Refusal 6: an offset or velocity that is not finite; there is no limit of magnitude.
pub(super) fn held_numbers(list: &mut List) {
    for call in accepted() {
        for place in call.kind.held() {
            for x in [NAN, NEGATIVE_NAN, INF, -INF, LARGEST] {
                list.add(call.with(*place, x));
            }
        }
    }
}

/// Two refusals at once, the lower one often in a later operand: the lower one is given.
pub(super) fn two_at_once(list: &mut List) {
    for call in accepted() {
        let last_move = *call.kind.moves().last().expect("a delta or dt");
        let reversed = call.with(MIN, 400.0);
        list.add(reversed.with(last_move, NAN));
        list.add(reversed.with(STOP_DISTANCE, -1.0));
        list.add(reversed.with(OFFSET, INF));
        let style = call.with(DECAY_TIME, 0.0);
        list.add(style.with(last_move, INF));
        list.add(style.with(MAX, -1.0));
        list.add(style.with(OFFSET, NAN));
        let held = call.with(OFFSET, -INF);
        list.add(held.with(last_move, away(LIMIT, 1)));
        list.add(held.with(STOP_DISTANCE, -1.0));
        if let Some(time) = call.kind.time() {
            list.add(style.with(time, -0.016));
            list.add(held.with(time, -0.016));
        }
    }
}

/// Refusal 8: a spring or a coast that leaves the finite numbers; beside them such that do not.
pub(super) fn answers_out_of_range(list: &mut List) {
    for (offset, velocity, dt) in [
        (3e38, 0.0, 0.016),
        (-3e38, 7.0, 0.016),
        (3e38, 0.0, 0.0),
        (3e38, 0.0, 2.0),
        (3e37, 0.0, 0.016),
        (3e36, 0.0, 0.016),
        (310.0, 1e38, 0.016), // a × w overflows, a × (w × dt) would not
        (310.0, -LARGEST, 0.0),
        (-10.0, 3e37, 0.1),
    ] {
        list.add(RUBBER.step(offset, velocity, dt, false));
    }
    list.add(RUBBER.step(3e38, 0.0, 0.016, true));
    list.add(PLAIN.step(3e38, 0.0, 0.016, false));
    for velocity in [LARGEST, -LARGEST] {
        list.add(PLAIN.step(LARGEST, velocity, 1.0, false));
        list.add(PLAIN.step(-LARGEST, velocity, 1.0, true));
    }
}
