//! What areas of one frame hand to each other: scroll targets and the scroll delta.

use crate::style::ScrollAnimation;
use crate::{Rangef, Vec2};
use emath::Align;

#[derive(Clone, Debug, PartialEq)]
pub struct ScrollTarget {
    pub range: Rangef,
    pub align: Option<Align>,
    pub animation: ScrollAnimation,
}

impl ScrollTarget {
    /// One that is meant for an area further out.
    pub(crate) fn further_out() -> ScrollTarget {
        ScrollTarget {
            range: Rangef::new(-7.0, 1234.5),
            align: Some(Align::Center),
            animation: ScrollAnimation {
                points_per_second: 3.0,
                duration: Rangef::new(1.0, 2.0),
            },
        }
    }
}

pub struct PassState {
    pub scroll_target: [Option<ScrollTarget>; 2],
    pub scroll_delta: (Vec2, ScrollAnimation),
}
