//! The functions of `numbers` under emath's own names and operands, as egui's text calls them.

use std::ops::RangeInclusive;

use crate::numbers::{self, Rangef};
use crate::rectangles::Rect;
use crate::vectors::{vec2, Vec2};

impl From<RangeInclusive<f32>> for Rangef {
    fn from(range: RangeInclusive<f32>) -> Rangef {
        Rangef::new(*range.start(), *range.end())
    }
}

/// Document 01: "lerp from a to b by t".
pub fn lerp(range: impl Into<Rangef>, t: f32) -> f32 {
    let Rangef { min, max } = range.into();
    numbers::lerp(min, max, t)
}

/// Document 01: "remap: t = (x - from start) / (from end - from start), then lerp."
pub fn remap(x: f32, from: impl Into<Rangef>, to: impl Into<Rangef>) -> f32 {
    let (from, to) = (from.into(), to.into());
    numbers::remap(x, from.min, from.max, to.min, to.max)
}

/// Document 01: "remap_clamp: a reversed source range reverses both ranges".
pub fn remap_clamp(x: f32, from: impl Into<Rangef>, to: impl Into<Rangef>) -> f32 {
    let (from, to) = (from.into(), to.into());
    numbers::remap_clamp(x, from.min, from.max, to.min, to.max)
}

/// Document 01: "interpolation_factor", with the ease that is handed in.
pub fn interpolation_factor(
    (start, end): (f64, f64),
    time: f64,
    dt: f32,
    easing: impl Fn(f32) -> f32,
) -> f32 {
    numbers::interpolation_factor_by(easing, start, end, time, dt)
}

/// Limits from below and above, part by part.
pub trait NumExt {
    /// The max of both.
    fn at_least(self, lower_limit: Self) -> Self;

    /// Document 01: "min(a, b), also at_most".
    fn at_most(self, upper_limit: Self) -> Self;
}

impl NumExt for f32 {
    fn at_least(self, lower_limit: f32) -> f32 {
        numbers::max(self, lower_limit)
    }

    fn at_most(self, upper_limit: f32) -> f32 {
        numbers::min(self, upper_limit)
    }
}

impl NumExt for Vec2 {
    fn at_least(self, lower_limit: Vec2) -> Vec2 {
        let Vec2 { x, y } = lower_limit;
        vec2(self.x.at_least(x), self.y.at_least(y))
    }

    fn at_most(self, upper_limit: Vec2) -> Vec2 {
        let Vec2 { x, y } = upper_limit;
        vec2(self.x.at_most(x), self.y.at_most(y))
    }
}

/// Document 01: "Left out: painting, opacity, cursors, ids, `load`/`store`, rounding to pixels".
pub trait GuiRounding: Sized {
    fn round_to_pixels(self, _pixels_per_point: f32) -> Self {
        self
    }

    fn round_ui(self) -> Self {
        self
    }
}

impl GuiRounding for Rect {}

/// The meanings of `numbers` as methods, under names that f32 does not have itself.
pub trait Stated {
    fn stated_signum(self) -> f32;
    fn stated_max(self, other: f32) -> f32;
    fn stated_min(self, other: f32) -> f32;
    fn stated_exp(self) -> f32;
}

impl Stated for f32 {
    fn stated_signum(self) -> f32 {
        numbers::signum(self)
    }

    fn stated_max(self, other: f32) -> f32 {
        numbers::max(self, other)
    }

    fn stated_min(self, other: f32) -> f32 {
        numbers::min(self, other)
    }

    fn stated_exp(self) -> f32 {
        numbers::exp_by_given(self)
    }
}
