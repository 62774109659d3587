//! Points, rectangles and alignments, after document 01, section "Numbers".

use std::ops::{Add, Sub};

use crate::numbers::{max, min, Rangef};
use crate::vectors::{parts_by_axis, vec2, Vec2};

/// A point, as emath's type of that name.
#[derive(Clone, Copy, Debug, Default, PartialEq)]
pub struct Pos2 {
    pub x: f32,
    pub y: f32,
}

parts_by_axis!(Pos2, f32);

pub const fn pos2(x: f32, y: f32) -> Pos2 {
    Pos2 { x, y }
}

impl Pos2 {
    pub const ZERO: Pos2 = pos2(0.0, 0.0);
}

impl Add<Vec2> for Pos2 {
    type Output = Pos2;

    fn add(self, by: Vec2) -> Pos2 {
        pos2(self.x + by.x, self.y + by.y)
    }
}

impl Sub<Vec2> for Pos2 {
    type Output = Pos2;

    fn sub(self, by: Vec2) -> Pos2 {
        pos2(self.x - by.x, self.y - by.y)
    }
}

impl Sub for Pos2 {
    type Output = Vec2;

    fn sub(self, other: Pos2) -> Vec2 {
        vec2(self.x - other.x, self.y - other.y)
    }
}

/// A rectangle, as emath's type of that name.
#[derive(Clone, Copy, Debug, PartialEq)]
pub struct Rect {
    pub min: Pos2,
    pub max: Pos2,
}

impl Rect {
    /// Document 01: "A rectangle from min and size has max = min + size".
    pub fn from_min_size(min: Pos2, size: impl Into<Vec2>) -> Rect {
        let max = min + size.into();
        Rect { min, max }
    }

    pub fn from_min_max(min: Pos2, max: Pos2) -> Rect {
        Rect { min, max }
    }

    pub fn from_x_y_ranges(x_range: impl Into<Rangef>, y_range: impl Into<Rangef>) -> Rect {
        let (x, y) = (x_range.into(), y_range.into());
        Rect::from_min_max(pos2(x.min, y.min), pos2(x.max, y.max))
    }

    /// Document 01: "its size is max - min, rounded again."
    pub fn size(self) -> Vec2 {
        self.max - self.min
    }

    pub fn width(self) -> f32 {
        self.max.x - self.min.x
    }

    pub fn height(self) -> f32 {
        self.max.y - self.min.y
    }

    pub fn x_range(self) -> Rangef {
        Rangef::new(self.min.x, self.max.x)
    }

    pub fn y_range(self) -> Rangef {
        Rangef::new(self.min.y, self.max.y)
    }

    pub fn left(self) -> f32 {
        self.min.x
    }

    pub fn right(self) -> f32 {
        self.max.x
    }

    pub fn top(self) -> f32 {
        self.min.y
    }

    pub fn bottom(self) -> f32 {
        self.max.y
    }

    pub fn left_top(self) -> Pos2 {
        self.min
    }

    pub fn right_bottom(self) -> Pos2 {
        self.max
    }

    /// Document 01: "An intersection takes the max of the mins and the min of the maxes."
    pub fn intersect(self, other: Rect) -> Rect {
        Rect {
            min: pos2(max(self.min.x, other.min.x), max(self.min.y, other.min.y)),
            max: pos2(min(self.max.x, other.max.x), min(self.max.y, other.max.y)),
        }
    }

    /// Document 01: "Containment includes both ends", on both axes.
    pub fn contains(self, point: Pos2) -> bool {
        let across = self.min.x <= point.x && point.x <= self.max.x;
        let down = self.min.y <= point.y && point.y <= self.max.y;
        across && down
    }
}

/// An alignment, as emath's type of that name.
#[derive(Clone, Copy, Debug, PartialEq, Eq)]
pub enum Align {
    Min,
    Center,
    Max,
}

impl Align {
    /// Document 01: "Align factors: Min 0, Center 0.5, Max 1."
    pub fn to_factor(self) -> f32 {
        match self {
            Align::Min => 0.0,
            Align::Center => 0.5,
            Align::Max => 1.0,
        }
    }
}
