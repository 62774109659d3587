//! Words as document 01 numbers them, from 1: of a frame, of a state and of an axis call.

use crate::pass_state::ScrollTarget;
use crate::style::ScrollAnimation;
use crate::{MouseWheelSource, Pos2, Rangef, Rect, Vec2, Vec2b, pos2};
use emath::Align;

/// Words that passed the checks, so that a flag is 0 or 1 and a kind one of its values.
#[derive(Clone, Copy)]
pub struct Words<'a>(pub &'a [u32]);

impl Words<'_> {
    pub fn word(&self, number: usize) -> u32 {
        self.0[number - 1]
    }

    pub fn flag(&self, number: usize) -> bool {
        match self.word(number) {
            0 => false,
            1 => true,
            word => panic!("word {number} is a flag of {word}"),
        }
    }

    pub fn flags(&self, first: usize) -> Vec2b {
        Vec2b::new(self.flag(first), self.flag(first + 1))
    }

    pub fn number(&self, number: usize) -> f32 {
        f32::from_bits(self.word(number))
    }

    pub fn pair(&self, first: usize) -> Vec2 {
        Vec2::new(self.number(first), self.number(first + 1))
    }

    pub fn point(&self, first: usize) -> Pos2 {
        pos2(self.number(first), self.number(first + 1))
    }

    pub fn range(&self, first: usize) -> Rangef {
        Rangef::new(self.number(first), self.number(first + 1))
    }

    pub fn rect(&self, first: usize) -> Rect {
        Rect::from_min_max(self.point(first), self.point(first + 2))
    }

    /// The low word first.
    pub fn double(&self, low: usize) -> f64 {
        f64::from_bits(u64::from(self.word(low + 1)) << 32 | u64::from(self.word(low)))
    }

    /// What stands behind the flag, if that is 1.
    pub fn option<T>(&self, flag: usize, read: impl FnOnce(&Self, usize) -> T) -> Option<T> {
        self.flag(flag).then(|| read(self, flag + 1))
    }

    pub fn animation(&self, first: usize) -> ScrollAnimation {
        ScrollAnimation {
            points_per_second: self.number(first),
            duration: self.range(first + 1),
        }
    }

    pub fn target(&self, first: usize) -> ScrollTarget {
        let aligns = [
            None,
            Some(Align::Min),
            Some(Align::Center),
            Some(Align::Max),
        ];
        ScrollTarget {
            range: self.range(first),
            align: aligns[self.word(first + 2) as usize],
            animation: self.animation(first + 3),
        }
    }

    pub fn source(&self, number: usize) -> Option<MouseWheelSource> {
        let sources = [
            None,
            Some(MouseWheelSource::Unknown),
            Some(MouseWheelSource::Wheel),
            Some(MouseWheelSource::Trackpad),
            Some(MouseWheelSource::Momentum),
        ];
        sources[self.word(number) as usize]
    }
}
