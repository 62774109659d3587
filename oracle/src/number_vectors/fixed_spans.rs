//! Fixed calls: interpolation, remapping, easing and spans of time.

use super::List;
use crate::words::{around, away, INF, LARGEST, NAN, SMALLEST};

/// Ends, beyond them, zero signs, roundings that a fused step would miss, 0 × infinity, overflow.
pub(super) fn interpolation(list: &mut List) {
    for t in [0.0, 0.5, 1.0, -1.0, 2.0] {
        list.floats("lerp", &[10.0, 300.0, t]);
    }
    for [a, b, t] in [
        [-0.0, -0.0, 0.0],
        [-0.0, -0.0, 1.0],
        [0.0, -0.0, 1.0],
        [-0.0, 0.0, 0.0],
        [47.2, 36.2, 0.74],
        [18.7, 93.6, 0.032],
        [300.0, 10.0, 0.9],
        [INF, 1.0, 1.0],
        [1.0, -INF, 0.0],
        [LARGEST, LARGEST, 0.5],
        [-LARGEST, LARGEST, 2.0],
        [SMALLEST, SMALLEST, 0.5],
    ] {
        list.floats("lerp", &[a, b, t]);
    }
}

/// Ends and beyond, a reversed source, a source without length, zero signs, a difference that rounds.
pub(super) fn remapping(list: &mut List) {
    for x in [0.0, 0.5, 1.0, 1.5] {
        list.floats("remap", &[x, 0.0, 1.0, -1.0, 1.0]);
    }
    for x in [4.0, 5.0, 6.0] {
        list.floats("remap", &[x, 5.0, 5.0, 0.0, 300.0]);
    }
    list.floats("remap", &[2.5, 10.0, 0.0, 0.0, 300.0]);
    list.floats("remap", &[-0.0, 0.0, 10.0, -0.0, -0.0]);
    list.floats("remap", &[0.7, 0.1, 0.9, 0.3, 299.7]);
    list.floats("remap", &[0.5, -1e8, 1.0, 7.0, -0.0]);
}

/// Both ends and one step around them, with the source in order, reversed, and without length.
pub(super) fn remapping_within_ends(list: &mut List) {
    let mut operands = vec![-1.0, -0.0, 0.0, SMALLEST, 0.7];
    operands.extend(around(10.0));
    for x in operands {
        list.floats("remap_clamp", &[x, 0.0, 10.0, 0.3, 200.7]);
    }
    for x in [-1.0, 0.0, 2.5, 10.0, 11.0] {
        list.floats("remap_clamp", &[x, 10.0, 0.0, 100.0, 200.0]);
    }
    for x in [4.0, 5.0, 6.0, NAN] {
        list.floats("remap_clamp", &[x, 5.0, 5.0, 100.0, 200.0]);
    }
}

/// A t that rounds to 1 below the end, where lerp would lose the zero's sign or meet 0 × infinity.
pub(super) fn remapping_at_rounded_ends(list: &mut List) {
    list.floats("remap_clamp", &[0.5, -1e8, 1.0, 7.0, -0.0]);
    list.floats("remap_clamp", &[0.5, -1e8, 1.0, INF, 3.0]);
    list.floats("remap_clamp", &[0.5, 1.0, -1e8, -0.0, 7.0]);
    list.floats("remap_clamp", &[0.5, 1.0, -1e8, 3.0, INF]);
    // Zeros of both signs as a source without length: the first test decides.
    list.floats("remap_clamp", &[-0.0, 0.0, -0.0, 1.0, 2.0]);
    list.floats("remap_clamp", &[0.0, -0.0, 0.0, 1.0, 2.0]);
    // A reversed target, and a source reversed by one step.
    list.floats("remap_clamp", &[5.0, 0.0, 10.0, 200.0, -100.0]);
    list.floats("remap_clamp", &[1.0, away(1.0, 1), 1.0, 3.0, 4.0]);
}

/// Around 0.5 and 1, where the answer falls as t grows, and where it exceeds 1 before the last clamp.
pub(super) fn easing(list: &mut List) {
    for x in around(0.5).into_iter().chain(around(1.0)) {
        list.floats("ease_in_ease_out", &[x]);
    }
    for steps in [-2, -4, -5] {
        list.floats("ease_in_ease_out", &[away(1.0, steps)]);
    }
    for bits in [0x3f7f_ec6a, 0x3f7f_f4b2, 0x3f7f_e001, 0x3f7f_e002] {
        list.words("ease_in_ease_out", &[bits]);
    }
    // Numbers whose products round apart by the order, and one whose square is subnormal.
    for x in [0.3, 0.7, 0.99, 1e-20, 2.0] {
        list.floats("ease_in_ease_out", &[x]);
    }
}

/// Before the start, at it, inside, at the end, after it; with and without a step of time.
pub(super) fn spans_in_order(list: &mut List) {
    for time in [0.5, 1.0, 1.05, 1.5, 2.0, 2.5] {
        list.span(1.0, 2.0, time, 0.1);
    }
    for time in [1.0, 1.5, 2.0] {
        list.span(1.0, 2.0, time, 0.0);
    }
    // The order of the differences of f64 shows here.
    let late = 4_294_966_295.7;
    list.span(late, 4_294_966_296.0, 4_294_966_295.801_5, 0.1);
    list.span(late, 4_294_966_296.0, 4_294_966_295.805, 0.1);
    // Easing falls near 1: a factor of -infinity, one below 0.
    let near_one = f64::from(away(1.0, -1));
    list.span(0.0, 1.0, near_one, f32::from_bits(0x399c_a800));
    let less_near = f64::from(f32::from_bits(0x3f7f_f001));
    list.span(0.0, 1.0, less_near, f32::from_bits(0x3380_0000));
}

/// No length, a length that narrows to 0 or to infinity, a reversed span, a negative step of time.
pub(super) fn spans_out_of_order(list: &mut List) {
    for time in [0.5, 1.0, 1.5] {
        list.span(1.0, 1.0, time, 0.0);
        list.span(1.0, 1.0, time, 0.1);
    }
    list.span(0.0, 1e-60, 0.0, 0.0);
    list.span(0.0, 1e-60, 1e-61, 0.1);
    list.span(0.0, 1e60, 1e50, 0.1);
    for time in [0.5, 1.5, 2.0, 2.5] {
        list.span(2.0, 1.0, time, 0.1);
    }
    list.span(1.0, 2.0, 1.5, -0.1);
    list.span(-0.0, 0.0, -0.0, -0.0);
}
