//! Numbers and flags as 32-bit words.

use crate::{Rect, Vec2, Vec2b};

/// All that are not a number are one: which of them an operation gives is left open, and no answer has one.
pub fn of_number(number: f32) -> u32 {
    if number.is_nan() {
        f32::NAN.to_bits()
    } else {
        number.to_bits()
    }
}

pub fn of_pair(pair: Vec2) -> [u32; 2] {
    [pair.x, pair.y].map(of_number)
}

pub fn of_flags(flags: Vec2b) -> [u32; 2] {
    [u32::from(flags.x), u32::from(flags.y)]
}

pub fn of_rect(rect: Rect) -> [u32; 4] {
    let Rect { min, max } = rect;
    [min.x, min.y, max.x, max.y].map(of_number)
}

/// A flag, then the rectangle's words or as many zeros.
pub fn of_option(rect: Option<Rect>) -> [u32; 5] {
    rect.map_or([0; 5], |rect| {
        let [left, top, right, bottom] = of_rect(rect);
        [1, left, top, right, bottom]
    })
}

/// The low word first.
pub fn of_double(double: f64) -> [u32; 2] {
    let bits = match double.is_nan() {
        true => f64::NAN.to_bits(),
        false => double.to_bits(),
    };
    [bits as u32, (bits >> 32) as u32]
}
