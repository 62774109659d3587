//! Stand-ins for document 01, section "Numbers", with document 02's exp, rounded once per operation.

use crate::table::{given, Table};

pub use crate::table::TABLE;

/// The sign bit of an f32.
const SIGN: u32 = 0x8000_0000;

/// Document 01: "by the sign bit"; the sign of a not-a-number counts as clear.
fn sign_is_set(x: f32) -> bool {
    !x.is_nan() && x.to_bits() & SIGN != 0
}

/// Document 01: "abs clears the sign bit".
pub fn abs(x: f32) -> f32 {
    f32::from_bits(x.to_bits() & !SIGN)
}

/// Document 01: "copysign moves it", the sign bit of y onto x.
pub fn copysign(x: f32, y: f32) -> f32 {
    let sign = if sign_is_set(y) { SIGN } else { 0 };
    f32::from_bits(abs(x).to_bits() | sign)
}

/// Document 01: "signum is 1 or -1 by the sign bit, zeros included."
#[cfg(not(feature = "ties"))]
pub fn signum(x: f32) -> f32 {
    if sign_is_set(x) {
        -1.0
    } else {
        1.0
    }
}

/// Document 01: "max(a, b) is a if b < a, else b".
#[cfg(not(feature = "ties"))]
pub fn max(a: f32, b: f32) -> f32 {
    if b < a {
        a
    } else {
        b
    }
}

/// Document 01: "min(a, b), also at_most, is a if a < b, else b."
#[cfg(not(feature = "ties"))]
pub fn min(a: f32, b: f32) -> f32 {
    if a < b {
        a
    } else {
        b
    }
}

/// Those of Rust's library.
#[cfg(feature = "ties")]
mod ties {
    pub fn max(a: f32, b: f32) -> f32 {
        a.max(b)
    }

    pub fn min(a: f32, b: f32) -> f32 {
        a.min(b)
    }

    pub fn signum(x: f32) -> f32 {
        x.signum()
    }
}

#[cfg(feature = "ties")]
pub use ties::{max, min, signum};

/// Document 01: "powi(2) is one product."
pub fn powi2(x: f32) -> f32 {
    x * x
}

/// Document 01: "A flag as a number is 1 or 0."
pub fn flag_as_number(flag: bool) -> f32 {
    if flag {
        1.0
    } else {
        0.0
    }
}

/// Document 01: "below min gives min, above max gives max, else the number itself, not-a-number included."
pub fn clamp(x: f32, min: f32, max: f32) -> f32 {
    if x < min {
        min
    } else if max < x {
        max
    } else {
        x
    }
}

/// A range of numbers, as emath's type of that name.
#[derive(Clone, Copy, Debug, PartialEq)]
pub struct Rangef {
    pub min: f32,
    pub max: f32,
}

impl Rangef {
    pub fn new(min: f32, max: f32) -> Rangef {
        Rangef { min, max }
    }

    /// Document 01: "clamp", to this range.
    pub fn clamp(self, x: f32) -> f32 {
        clamp(x, self.min, self.max)
    }

    /// Document 01: "Containment includes both ends."
    pub fn contains(self, x: f32) -> bool {
        self.min <= x && x <= self.max
    }
}

/// Document 01: "ceil is the least whole number not below; of -0.5 it is -0."
pub fn ceil(x: f32) -> f32 {
    let bits = x.to_bits();
    let negative = bits & SIGN != 0;
    let exponent = (bits & !SIGN) >> 23;
    if exponent >= 150 || x == 0.0 {
        return x; // from 2^23 on every number is whole; also both infinities and not-a-number
    }
    if exponent < 127 {
        return if negative { -0.0 } else { 1.0 }; // between 0 and 1 in magnitude
    }
    let one = 1 << (150 - exponent); // the bit of the significand that counts ones
    let truncated = bits & !(one - 1);
    if truncated == bits || negative {
        f32::from_bits(truncated)
    } else {
        f32::from_bits(truncated + one) // a carry raises the exponent
    }
}

/// Document 01: "f64 narrows to f32 by nearest even."
pub fn narrow(x: f64) -> f32 {
    let bits = x.to_bits();
    let sign = (bits >> 32) as u32 & SIGN;
    let exponent = (bits >> 52) as u32 & 0x7ff;
    let fraction = bits & ((1 << 52) - 1);
    let magnitude = if exponent == 0x7ff && fraction != 0 {
        0x7fc0_0000 // not-a-number
    } else if exponent > 1023 + 127 {
        0x7f80_0000 // 2^128 and more, and infinity
    } else if exponent < 1023 - 150 {
        0 // less than half of the smallest subnormal
    } else {
        narrowed_magnitude(exponent, fraction | 1 << 52)
    };
    f32::from_bits(sign | magnitude)
}

/// Document 01: "by nearest even", for a magnitude from 2^-150 to below 2^128.
fn narrowed_magnitude(exponent: u32, significand: u64) -> u32 {
    let least_normal = 1023 - 126;
    let above = exponent.saturating_sub(least_normal);
    let below = least_normal.saturating_sub(exponent);
    let dropped = 52 - 23 + below;
    let kept = (significand >> dropped) as u32;
    let rest = significand & ((1 << dropped) - 1);
    let half = 1 << (dropped - 1);
    let up = rest > half || (rest == half && kept % 2 == 1);
    // The leading bit of kept adds 1 to the exponent, and so does a carry.
    (above << 23) + kept + u32::from(up)
}

/// Document 01: "exp, ceil, narrowing, widening"; every f32 is an f64.
pub fn widen(x: f32) -> f64 {
    f64::from(x)
}

/// Document 01: "lerp from a to b by t: (1 - t) × a + t × b."
pub fn lerp(a: f32, b: f32, t: f32) -> f32 {
    (1.0 - t) * a + t * b
}

/// Document 01: "t = (x - from start) / (from end - from start)".
fn fraction_of(x: f32, from_start: f32, from_end: f32) -> f32 {
    (x - from_start) / (from_end - from_start)
}

/// Document 01: "remap: t = (x - from start) / (from end - from start), then lerp."
pub fn remap(x: f32, from_start: f32, from_end: f32, to_start: f32, to_end: f32) -> f32 {
    lerp(to_start, to_end, fraction_of(x, from_start, from_end))
}

/// Document 01: "remap_clamp: a reversed source range reverses both ranges".
pub fn remap_clamp(x: f32, from_start: f32, from_end: f32, to_start: f32, to_end: f32) -> f32 {
    if from_end < from_start {
        remap_clamp_in_order(x, from_end, from_start, to_end, to_start)
    } else {
        remap_clamp_in_order(x, from_start, from_end, to_start, to_end)
    }
}

/// Document 01: "then x ≤ start gives the target start, end ≤ x the target end, 1 ≤ t the target end, else lerp."
fn remap_clamp_in_order(x: f32, start: f32, end: f32, to_start: f32, to_end: f32) -> f32 {
    let t = fraction_of(x, start, end);
    if x <= start {
        to_start
    } else if end <= x || 1.0 <= t {
        to_end
    } else {
        lerp(to_start, to_end, t)
    }
}

/// Document 01: "clamp t to 0..1, then 3 × t × t - 2 × t × t × t, from the left, clamped again."
pub fn ease_in_ease_out(t: f32) -> f32 {
    let t = clamp(t, 0.0, 1.0);
    clamp(3.0 * t * t - 2.0 * t * t * t, 0.0, 1.0)
}

/// Document 01: "prev and cur are ease of narrowed (time - dt - start) / length and narrowed (time - start) / length".
pub fn interpolation_factor(start: f64, end: f64, time: f64, dt: f32) -> f32 {
    interpolation_factor_by(ease_in_ease_out, start, end, time, dt)
}

/// Document 01: "(cur - prev) / (1 - prev) if cur < 1, else 1", by any ease.
pub fn interpolation_factor_by(
    ease: impl Fn(f32) -> f32,
    start: f64,
    end: f64,
    time: f64,
    dt: f32,
) -> f32 {
    let length = narrow(end - start);
    let prev = ease(narrow(time - widen(dt) - start) / length);
    let cur = ease(narrow(time - start) / length);
    if cur < 1.0 {
        (cur - prev) / (1.0 - prev)
    } else {
        1.0
    }
}

/// exp by table T.
pub fn exp(x: f32) -> f32 {
    exp_by(&TABLE, x)
}

/// exp by the table that is given, and by T where none is.
#[inline]
pub fn exp_by_given(x: f32) -> f32 {
    exp_by(given().unwrap_or(&TABLE), x)
}

/// Document 02: "the square, rounded once, of exp of half of x", from -80 up to, but without, -16; "Below -80 it is 0."
///
/// Above 0 it is a not-a-number. The squares too read the table "in the place of T".
pub fn exp_by(table: &Table, x: f32) -> f32 {
    if x < -80.0 {
        return 0.0;
    }
    if x < -16.0 {
        return powi2(exp_by(table, x / 2.0));
    }
    if x.is_nan() || 0.0 < x {
        return f32::NAN;
    }
    exp_by_entry(table, x)
}

/// Document 01: "u = -64 × x, k its whole part, y = (u - k) / 64", for x from -16 to 0.
fn exp_by_entry(table: &Table, x: f32) -> f32 {
    let u = -64.0 * x;
    let k = u as usize;
    let y = (u - k as f32) / 64.0;
    exp_remainder(y) * exp_of_entry(table[k])
}

/// Document 01: "q = 1 - y × (1 - y / 2 × (1 - y / 3))".
fn exp_remainder(y: f32) -> f32 {
    1.0 - y * (1.0 - y / 2.0 * (1.0 - y / 3.0))
}

/// Document 01: "whole part of T[k] / 65,536, divided by 2^24"; both steps are exact, as no entry is above the first, 2^40.
fn exp_of_entry(entry: u64) -> f32 {
    (entry / 65_536) as f32 / 16_777_216.0
}
