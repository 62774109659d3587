//! Fixed calls: limits, infinities and not-a-number in every place.

use super::List;
use crate::words::{EDGES, INF, NAN};

/// Limits, zeros, infinities and not-a-number in every call of one f32.
pub(super) fn edges_of_one_operand(list: &mut List) {
    for name in [
        "abs",
        "signum",
        "powi2",
        "ceil",
        "widen",
        "ease_in_ease_out",
        "exp",
    ] {
        for bits in EDGES {
            list.words(name, &[bits]);
        }
    }
}

/// A not-a-number and both infinities in each place of the calls of several numbers.
pub(super) fn unusual_operands(list: &mut List) {
    let usual: [(&str, &[f32]); 8] = [
        ("copysign", &[2.5, -1.0]),
        ("max", &[1.0, 2.0]),
        ("min", &[1.0, 2.0]),
        ("clamp", &[5.0, 0.0, 10.0]),
        ("range_contains", &[0.0, 10.0, 5.0]),
        ("lerp", &[10.0, 20.0, 0.25]),
        ("remap", &[5.0, 0.0, 10.0, 100.0, 200.0]),
        ("remap_clamp", &[5.0, 0.0, 10.0, 100.0, 200.0]),
    ];
    for (name, operands) in usual {
        for place in 0..operands.len() {
            for unusual in [NAN, INF, -INF] {
                let mut changed = operands.to_vec();
                changed[place] = unusual;
                list.floats(name, &changed);
            }
        }
    }
}

/// A not-a-number in each place of the rectangle calls, and the infinities by turns.
pub(super) fn unusual_corners(list: &mut List) {
    let usual: [(&str, &[f32]); 4] = [
        ("rect_from_min_size", &[1.0, 2.0, 10.0, 20.0]),
        ("rect_size", &[1.0, 2.0, 11.0, 22.0]),
        (
            "rect_intersect",
            &[0.0, 0.0, 10.0, 10.0, 5.0, 5.0, 20.0, 20.0],
        ),
        ("rect_contains", &[0.0, 0.0, 10.0, 10.0, 5.0, 5.0]),
    ];
    for (name, operands) in usual {
        for place in 0..operands.len() {
            let mut changed = operands.to_vec();
            changed[place] = NAN;
            list.floats(name, &changed);
        }
        for (infinite, other) in [(INF, -INF), (-INF, INF)] {
            let mut changed = operands.to_vec();
            changed[0] = infinite;
            changed[operands.len() - 1] = other;
            list.floats(name, &changed);
        }
    }
}

/// A not-a-number and both infinities in each place of interpolation_factor.
pub(super) fn unusual_times(list: &mut List) {
    for unusual in [f64::from_bits(0x7ff8 << 48), f64::INFINITY, -f64::INFINITY] {
        list.span(unusual, 2.0, 1.5, 0.125);
        list.span(1.0, unusual, 1.5, 0.125);
        list.span(1.0, 2.0, unusual, 0.125);
    }
    for unusual in [NAN, INF, -INF] {
        list.span(1.0, 2.0, 1.5, unusual);
    }
}
