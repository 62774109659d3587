//! Fixed calls: whole numbers, narrowing, widening and the exponential.

use super::List;
use crate::words::around;

/// One step around whole numbers of both signs, up to 2^23 and 2^24 where all are whole; halves.
pub(super) fn whole_numbers(list: &mut List) {
    for whole in [1.0, 100.0, 8_388_608.0, 16_777_216.0] {
        for x in around(whole) {
            list.floats("ceil", &[x]);
            list.floats("ceil", &[-x]);
        }
    }
    for x in [0.5, -0.5, 100.25, -100.25, 4_194_303.5, -8_388_606.5] {
        list.floats("ceil", &[x]);
    }
}

/// The middle between an f32 and the next, and one f64 step to each side of it.
pub(super) fn ties_of_narrowing(list: &mut List) {
    for bits in [
        0x3f80_0000, // 1, an even one
        0x3f80_0001, // an odd one
        0x3fff_ffff, // an odd one whose carry raises the exponent
        0x4b80_0000, // 16777216, whose tie is 16777217
        0x7f7f_ffff, // the largest, whose tie overflows
        0x0000_0000, // half of the smallest subnormal
        0x0000_0001,
        0x0000_0002,
        0x007f_ffff, // the largest subnormal, which carries into the smallest normal
        0x0080_0000,
    ] {
        let low = f64::from(f32::from_bits(bits));
        let gap = f64::from(f32::from_bits(bits & 0x7f80_0000 | 1))
            - f64::from(f32::from_bits(bits & 0x7f80_0000));
        let middle = low + gap / 2.0;
        for step in [-1, 0, 1] {
            let near = middle.to_bits().wrapping_add_signed(step);
            list.wide(f64::from_bits(near));
        }
        list.wide(-middle);
    }
}

/// Limits of f64 with both signs, the limit 2^128, a not-a-number in the low word, every 64th exponent.
pub(super) fn limits_of_narrowing(list: &mut List) {
    for bits in [
        0x0000_0000_0000_0000,
        0x0000_0000_0000_0001,
        0x0010_0000_0000_0000,
        0x47f0_0000_0000_0000,
        0x7fef_ffff_ffff_ffff,
        0x7ff0_0000_0000_0000,
        0x7ff0_0000_0000_0001,
        0x7ff8_0000_0000_0000,
    ] {
        list.wide(f64::from_bits(bits));
        list.wide(f64::from_bits(bits | 1 << 63));
    }
    let root_of_two = 0x6_a09e_667f_3bcd;
    for exponent in (0..0x7ff).step_by(64) {
        list.wide(f64::from_bits(exponent << 52 | root_of_two));
    }
}

/// A number with every bit in use, and subnormals of several lengths.
pub(super) fn widths(list: &mut List) {
    for bits in [0x3dcc_cccd, 0xc396_5555, 0x0000_0003, 0x8040_0000] {
        list.words("widen", &[bits]);
    }
}

/// Where the table ends and the halvings change in number, one step around; within, beyond, too small to matter.
pub(super) fn ends_of_exp(list: &mut List) {
    for end in [-16.0, -15.984375, -32.0, -64.0, -80.0] {
        for x in around(end) {
            list.floats("exp", &[x]);
        }
    }
    for x in [-17.0, -40.0, -50.0, -79.0, -100.0, 1e-30, 0.5] {
        list.floats("exp", &[x]);
    }
    for bits in [0x8000_0003, 0x8000_0040, 0xb280_0000, 0xb300_0001] {
        list.words("exp", &[bits]);
    }
}

/// Halves that come to -8.5 and one step around it; arguments whose last bit shows that every square is rounded.
pub(super) fn halves_of_exp(list: &mut List) {
    for whole in [-17.0, -34.0, -68.0] {
        for x in around(whole) {
            list.floats("exp", &[x]);
        }
    }
    for bits in [0xc202_accc, 0xc204_552e, 0xc282_accc, 0xc284_552e] {
        list.words("exp", &[bits]);
    }
}

/// Multiples of 1/64 and one step around them; arguments whose last bit shows the order of the steps.
pub(super) fn inside_of_exp(list: &mut List) {
    for k in [1.0, 32.0, 64.0, 512.0, 544.0] {
        for x in around(-k / 64.0) {
            list.floats("exp", &[x]);
        }
    }
    for bits in [0xbd95_f430, 0xbf29_fb61, 0xbfd7_d0c1, 0xc0af_2e7a] {
        list.words("exp", &[bits]);
    }
}
