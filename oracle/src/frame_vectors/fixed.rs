//! The fixed list: every group of it, in order.

use super::{fixed_clocks, fixed_flags, fixed_numbers, fixed_options};
use super::{fixed_order, fixed_ranges, fixed_states};
use super::{Call, List};

/// Adds calls on one subject.
type Group = fn(&mut List);

const WORDS: [Group; 7] = [
    fixed_flags::good_frames,
    fixed_flags::flags,
    fixed_flags::kinds,
    fixed_numbers::limits,
    fixed_numbers::up_to_infinity,
    fixed_numbers::outside_options,
    fixed_numbers::times,
];

const RANGES: [Group; 6] = [
    fixed_ranges::pairs,
    fixed_ranges::signs,
    fixed_ranges::factors,
    fixed_ranges::decay_time,
    fixed_ranges::stop_distance,
    fixed_ranges::speeds,
];

const OPTIONS: [Group; 4] = [
    fixed_options::one_at_a_time,
    fixed_options::garbage,
    fixed_options::hidden_ranges,
    fixed_options::filled_with_garbage,
];

const ORDER: [Group; 5] = [
    fixed_order::two_slips,
    fixed_order::many_slips,
    fixed_order::lengths,
    fixed_order::lengths_with_slips,
    fixed_order::slips_and_states,
];

const STATES: [Group; 5] = [
    fixed_states::good_states,
    fixed_states::each_number,
    fixed_states::one_option_only,
    fixed_states::everywhere,
    fixed_states::reversed,
];

const CLOCKS: [Group; 5] = [
    fixed_clocks::around_the_time,
    fixed_clocks::zeros,
    fixed_clocks::halves,
    fixed_clocks::not_finite,
    fixed_clocks::faults_before_12,
];

/// The fixed calls.
pub fn fixed_list() -> Vec<Call> {
    let mut list = List::default();
    let subjects: [&[Group]; 6] = [&WORDS, &RANGES, &OPTIONS, &ORDER, &STATES, &CLOCKS];
    for group in subjects.concat() {
        group(&mut list);
    }
    list.calls
}
