//! The fixed list: every group of it, in order.

use super::{
    fixed_plain, fixed_rectangles, fixed_rounding, fixed_spans, fixed_unusual, Call, List,
};

/// The fixed calls.
pub fn fixed_list() -> Vec<Call> {
    let mut list = List(Vec::new());
    let groups = [
        fixed_unusual::edges_of_one_operand,
        fixed_unusual::unusual_operands,
        fixed_unusual::unusual_corners,
        fixed_unusual::unusual_times,
        fixed_plain::signs,
        fixed_plain::ties_of_max_and_min,
        fixed_plain::products,
        fixed_plain::clamp_at_its_ends,
        fixed_plain::clamp_between_strange_ends,
        fixed_plain::containment,
        fixed_rounding::whole_numbers,
        fixed_rounding::ties_of_narrowing,
        fixed_rounding::limits_of_narrowing,
        fixed_rounding::widths,
        fixed_spans::interpolation,
        fixed_spans::remapping,
        fixed_spans::remapping_within_ends,
        fixed_spans::remapping_at_rounded_ends,
        fixed_spans::easing,
        fixed_spans::spans_in_order,
        fixed_spans::spans_out_of_order,
        fixed_rectangles::rectangle_sizes,
        fixed_rectangles::rectangle_meetings,
        fixed_rectangles::rectangle_points,
        fixed_rounding::ends_of_exp,
        fixed_rounding::halves_of_exp,
        fixed_rounding::inside_of_exp,
    ];
    for group in groups {
        group(&mut list);
    }
    list.0
}
