//! Document 02's K6, "Which wheel turns are taken": the law of the wheel's answers, from the document's words and not by the Rust's own steps.

use crate::axis_calls::Wheeled;
use crate::branches::Branch;
use crate::numbers::clamp;
use crate::scroll_physics::{AxisPhysics, MouseWheelSource, WheelScroll};

/// A turn of the wheel, as it is given.
#[derive(Clone, Copy, Debug)]
pub struct Turn {
    pub axis: AxisPhysics,
    pub offset: f32,
    pub velocity: f32,
    pub scroll: WheelScroll,
    pub bounced: bool,
}

/// Who takes a turn: the first ground that applies, in the order of the branches that count it.
#[derive(Clone, Copy, Debug, PartialEq, Eq)]
pub enum Ground {
    /// No delta, so nothing to take.
    Zero,
    /// The offset can move that way.
    Can,
    /// Rubber banding, as the offset is outside the bounds.
    Overscroll,
    /// Rubber banding, as no parent could have the turn.
    NoParent,
    /// Document 01's corner of Momentum after a bounce.
    Corner,
    /// None applies: a parent may have the turn.
    Nobody,
}

impl Ground {
    /// The branch that counts it, among those of wheel calls or those of frames.
    pub fn among(self, branches: &[(Branch, &str)]) -> Option<Branch> {
        branches.get(self as usize).map(|named| named.0)
    }
}

const LEFT_AS_GIVEN: &str = "an answer of false leaves offset and velocity as given";
const TAKEN_INSIDE: &str =
    "an answer of true with rubber band off leaves the offset inside the bounds and the velocity as given";
const FLAG_CLEAR: &str = "a source other than Momentum always ends with the bounce flag clear";
const LEFT_EXACTLY: &str =
    "false is answered exactly when the delta is 0, or the offset cannot move that way and neither rubber banding nor the corner takes it";

impl Turn {
    fn is_momentum(&self) -> bool {
        self.scroll.source == Some(MouseWheelSource::Momentum)
    }

    /// Whether the rubber band is on and the source one that may stretch it.
    fn may_stretch(&self) -> bool {
        let is_trackpad = self.scroll.source == Some(MouseWheelSource::Trackpad);
        self.axis.style.rubber_band && (is_trackpad || self.is_momentum())
    }

    fn is_overscrolled(&self) -> bool {
        let bounds = self.axis.bounds;
        self.offset - clamp(self.offset, bounds.min, bounds.max) != 0.0
    }

    /// "the offset cannot move that way, by the Rust's own test": an offset on the end has no room there.
    pub fn can(&self) -> bool {
        let (bounds, delta) = (self.axis.bounds, self.scroll.delta);
        (delta < 0.0 && bounds.min < self.offset) || (0.0 < delta && self.offset < bounds.max)
    }

    /// "rubber banding, by its grounds in the Rust".
    pub fn band(&self) -> bool {
        let has_no_parent = !self.scroll.can_chain_to_parent;
        self.may_stretch() && (self.can() || self.is_overscrolled() || has_no_parent)
    }

    /// "document 01's corner of Momentum after a bounce"; the flag is the one given.
    pub fn corner(&self) -> bool {
        self.axis.style.rubber_band && self.is_momentum() && self.bounced
    }

    /// Whether the law has false answered.
    pub fn is_untaken(&self) -> bool {
        self.scroll.delta == 0.0 || !(self.can() || self.band() || self.corner())
    }

    pub fn ground(&self) -> Ground {
        if self.scroll.delta == 0.0 {
            Ground::Zero
        } else if self.can() {
            Ground::Can
        } else if self.may_stretch() && self.is_overscrolled() {
            Ground::Overscroll
        } else if self.may_stretch() && !self.scroll.can_chain_to_parent {
            Ground::NoParent
        } else if self.corner() {
            Ground::Corner
        } else {
            Ground::Nobody
        }
    }

    /// The sentence of the law that the call's answer breaks, if any; a refused call is outside the law.
    pub fn broken(&self, wheeled: &Wheeled) -> Option<&'static str> {
        if wheeled.refusal != 0 {
            return None;
        }
        let Wheeled { offset, answer, .. } = *wheeled;
        let (bounds, style) = (self.axis.bounds, self.axis.style);
        // By the bits, since both zeros are equal.
        let keeps_offset = offset.to_bits() == self.offset.to_bits();
        let keeps_velocity = wheeled.velocity.to_bits() == self.velocity.to_bits();
        let is_inside = bounds.min <= offset && offset <= bounds.max;
        let stops_hard = answer && !style.rubber_band;
        let sentences = [
            (answer || keeps_offset && keeps_velocity, LEFT_AS_GIVEN),
            (!stops_hard || is_inside && keeps_velocity, TAKEN_INSIDE),
            (self.is_momentum() || !wheeled.bounced, FLAG_CLEAR),
            (answer != self.is_untaken(), LEFT_EXACTLY),
        ];
        let unkept = sentences.iter().find(|(is_kept, _)| !is_kept);
        unkept.map(|(_, words)| *words)
    }
}
