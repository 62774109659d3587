//! Pairs of numbers and of flags along the two axes, taken part by part.

use std::ops::{Add, Mul, Neg, Sub};

use crate::numbers::flag_as_number;

/// The part along axis d, as emath has it; inlined, as the port is another package and bench/ counts its cost.
macro_rules! parts_by_axis {
    ($name:ty, $part:ty) => {
        impl std::ops::Index<usize> for $name {
            type Output = $part;

            #[inline]
            fn index(&self, d: usize) -> &$part {
                match d {
                    0 => &self.x,
                    1 => &self.y,
                    _ => panic!("there are two axes"),
                }
            }
        }

        impl std::ops::IndexMut<usize> for $name {
            #[inline]
            fn index_mut(&mut self, d: usize) -> &mut $part {
                match d {
                    0 => &mut self.x,
                    1 => &mut self.y,
                    _ => panic!("there are two axes"),
                }
            }
        }
    };
}

pub(crate) use parts_by_axis;

/// A pair of numbers, as emath's type of that name.
#[derive(Clone, Copy, Debug, Default, PartialEq)]
pub struct Vec2 {
    pub x: f32,
    pub y: f32,
}

parts_by_axis!(Vec2, f32);

pub const fn vec2(x: f32, y: f32) -> Vec2 {
    Vec2 { x, y }
}

impl Vec2 {
    pub const ZERO: Vec2 = Vec2::splat(0.0);
    pub const INFINITY: Vec2 = Vec2::splat(f32::INFINITY);

    pub const fn new(x: f32, y: f32) -> Vec2 {
        vec2(x, y)
    }

    pub const fn splat(both: f32) -> Vec2 {
        vec2(both, both)
    }

    /// The parts in the other order.
    pub fn yx(self) -> Vec2 {
        vec2(self.y, self.x)
    }
}

impl From<[f32; 2]> for Vec2 {
    fn from([x, y]: [f32; 2]) -> Vec2 {
        vec2(x, y)
    }
}

impl From<Vec2> for [f32; 2] {
    fn from(pair: Vec2) -> [f32; 2] {
        [pair.x, pair.y]
    }
}

impl Add for Vec2 {
    type Output = Vec2;

    fn add(self, other: Vec2) -> Vec2 {
        vec2(self.x + other.x, self.y + other.y)
    }
}

impl Sub for Vec2 {
    type Output = Vec2;

    fn sub(self, other: Vec2) -> Vec2 {
        vec2(self.x - other.x, self.y - other.y)
    }
}

/// Part by part.
impl Mul for Vec2 {
    type Output = Vec2;

    fn mul(self, other: Vec2) -> Vec2 {
        vec2(self.x * other.x, self.y * other.y)
    }
}

impl Mul<f32> for Vec2 {
    type Output = Vec2;

    fn mul(self, factor: f32) -> Vec2 {
        vec2(self.x * factor, self.y * factor)
    }
}

impl Neg for Vec2 {
    type Output = Vec2;

    fn neg(self) -> Vec2 {
        vec2(-self.x, -self.y)
    }
}

/// A pair of flags, as emath's type of that name.
#[derive(Clone, Copy, Debug, Default, PartialEq, Eq)]
pub struct Vec2b {
    pub x: bool,
    pub y: bool,
}

parts_by_axis!(Vec2b, bool);

impl Vec2b {
    pub const FALSE: Vec2b = Vec2b::new(false, false);
    pub const TRUE: Vec2b = Vec2b::new(true, true);

    pub const fn new(x: bool, y: bool) -> Vec2b {
        Vec2b { x, y }
    }

    pub fn any(self) -> bool {
        self.x || self.y
    }

    /// Document 01: "A flag as a number is 1 or 0."
    pub fn to_vec2(self) -> Vec2 {
        vec2(flag_as_number(self.x), flag_as_number(self.y))
    }
}

impl From<bool> for Vec2b {
    fn from(both: bool) -> Vec2b {
        Vec2b::new(both, both)
    }
}

impl From<[bool; 2]> for Vec2b {
    fn from([x, y]: [bool; 2]) -> Vec2b {
        Vec2b::new(x, y)
    }
}
