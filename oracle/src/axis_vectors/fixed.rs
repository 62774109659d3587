//! The fixed list: every group of it, in order.

use super::{fixed_drag, fixed_refusals, fixed_step, fixed_wheel, fixed_wheel_edges};
use super::{fixed_wheel_turns, Call, List};

/// Adds calls on one subject.
type Group = fn(&mut List);

const READINGS: [Group; 3] = [
    fixed_drag::readings,
    fixed_step::readings,
    fixed_wheel::readings,
];

const REFUSALS: [Group; 7] = [
    fixed_refusals::numbers_out_of_range,
    fixed_refusals::reversed_bounds,
    fixed_refusals::negative_times,
    fixed_refusals::styles_out_of_range,
    fixed_refusals::held_numbers,
    fixed_refusals::two_at_once,
    fixed_refusals::answers_out_of_range,
];

const DRAGS: [Group; 8] = [
    fixed_drag::rubber_off,
    fixed_drag::inside,
    fixed_drag::further_out,
    fixed_drag::back_again,
    fixed_drag::exactly_on_the_edge,
    fixed_drag::roundings,
    fixed_drag::strange_extents,
    fixed_drag::strange_bounds,
];

const STEPS: [Group; 10] = [
    fixed_step::coasting,
    fixed_step::ends_of_the_exponent,
    fixed_step::short_decays,
    fixed_step::resting,
    fixed_step::zeros,
    fixed_step::springing,
    fixed_step::springing_for_long,
    fixed_step::roundings,
    fixed_step::settling,
    fixed_step::holding,
];

const WHEELS: [Group; 11] = [
    fixed_wheel::every_flag,
    fixed_wheel::no_delta,
    fixed_wheel_edges::bounds_are_strict,
    fixed_wheel_edges::no_room,
    fixed_wheel_edges::heading_back,
    fixed_wheel_edges::rounded_product,
    fixed_wheel_edges::trackpad_resistance,
    fixed_wheel_edges::momentum_reaches_the_edge,
    fixed_wheel_edges::bounce_speeds,
    fixed_wheel_edges::huge_offsets,
    fixed_wheel_edges::zeros,
];

const TURNS: [Group; 4] = [
    fixed_wheel_turns::named,
    fixed_wheel_turns::every_turn,
    fixed_wheel_turns::one_number,
    fixed_wheel_turns::far_out,
];

/// The fixed calls.
pub fn fixed_list() -> Vec<Call> {
    let mut list = List(Vec::new());
    let subjects: [&[Group]; 6] = [&READINGS, &REFUSALS, &DRAGS, &STEPS, &WHEELS, &TURNS];
    for group in subjects.concat() {
        group(&mut list);
    }
    list.0
}
