//! Fixed calls: signs, ties, products, clamping and containment.

use super::List;
use crate::words::{around, away, INF, LARGEST, NAN, NEGATIVE_NAN, SMALLEST};

/// The sign moved from both zeros and from a not-a-number, whose sign counts as clear; ordinary signs.
pub(super) fn signs(list: &mut List) {
    for x in [1.5, -0.0, -LARGEST] {
        for y in [0.0, -0.0, NEGATIVE_NAN] {
            list.floats("copysign", &[x, y]);
        }
    }
    list.floats("copysign", &[NEGATIVE_NAN, 1.0]);
    list.floats("copysign", &[SMALLEST, -INF]);
    list.floats("abs", &[-2.5]);
    list.floats("signum", &[-2.5]);
    list.floats("signum", &[2.5]);
}

/// Ties give the second operand: zeros in both orders, not-a-number on either side; then neighbours.
pub(super) fn ties_of_max_and_min(list: &mut List) {
    let above_one = away(1.0, 1);
    for [a, b] in [
        [0.0, -0.0],
        [-0.0, 0.0],
        [-0.0, -0.0],
        [NAN, NAN],
        [NEGATIVE_NAN, -0.0],
        [-0.0, NEGATIVE_NAN],
        [INF, NAN],
        [NAN, -INF],
        [1.0, above_one],
        [above_one, 1.0],
        [SMALLEST, -0.0],
        [0.0, -SMALLEST],
        [-LARGEST, -INF],
        [-1.0, -2.0],
    ] {
        list.floats("max", &[a, b]);
        list.floats("min", &[a, b]);
    }
}

/// A product that overflows, that meets each subnormal limit, that rounds; then the flags and factors.
pub(super) fn products(list: &mut List) {
    for bits in [
        0x5f7f_ffff, // just below 2^64
        0xdf80_0000, // -2^64, whose product is infinite
        0x1a00_0000, // 2^-75, half of the smallest subnormal when squared
        0x1a00_0001,
        0x1fff_ffff, // just below 2^-63, the root of the smallest normal
        0x2000_0000,
        0x3dcc_cccd, // 0.1, which rounds
    ] {
        list.words("powi2", &[bits]);
    }
    for flag in [0, 1] {
        list.words("flag_as_number", &[flag]);
    }
    for kind in [0, 1, 2] {
        list.words("align_factor", &[kind]);
    }
}

/// Each end, one step to both sides of it, and far beyond.
pub(super) fn clamp_at_its_ends(list: &mut List) {
    let mut operands = vec![-5.0, -SMALLEST, -0.0, 0.0, SMALLEST, 150.0];
    operands.extend(around(300.0));
    operands.extend([310.0, NEGATIVE_NAN]);
    for x in operands {
        list.floats("clamp", &[x, 0.0, 300.0]);
    }
}

/// Zeros of both signs as ends, reversed ends, ends that are no number, infinite ends.
pub(super) fn clamp_between_strange_ends(list: &mut List) {
    for [min, max] in [[0.0, 0.0], [-0.0, -0.0], [0.0, -0.0]] {
        for x in [0.0, -0.0] {
            list.floats("clamp", &[x, min, max]);
        }
    }
    for x in [-1.0, 0.0, 5.0, 10.0, 11.0] {
        list.floats("clamp", &[x, 10.0, 0.0]);
    }
    list.floats("clamp", &[5.0, NAN, 3.0]);
    list.floats("clamp", &[5.0, 8.0, NAN]);
    list.floats("clamp", &[-5.0, NAN, NAN]);
    list.floats("clamp", &[NAN, 10.0, 0.0]);
    list.floats("clamp", &[LARGEST, -INF, INF]);
}

/// Both ends are held and one step beyond is not; zeros are equal; reversed ends hold nothing.
pub(super) fn containment(list: &mut List) {
    let mut operands = vec![-SMALLEST, -0.0, 0.0, 150.0];
    operands.extend(around(300.0));
    for x in operands {
        list.floats("range_contains", &[0.0, 300.0, x]);
    }
    list.floats("range_contains", &[-0.0, -0.0, 0.0]);
    list.floats("range_contains", &[5.0, 5.0, 5.0]);
    list.floats("range_contains", &[10.0, 0.0, 5.0]);
    list.floats("range_contains", &[10.0, 0.0, 10.0]);
    list.floats("range_contains", &[-INF, INF, INF]);
}
