//! The axis calls by egui's own `AxisPhysics`, on the words of calls that passed the checks.

use crate::bits::of_number;
use crate::containers::scroll_physics::{AxisPhysics, WheelScroll};
use crate::style::KineticScrollStyle;
use crate::words::Words;

/// The axis: words 1 to 6.
fn physics(words: Words) -> AxisPhysics {
    AxisPhysics {
        bounds: words.range(1),
        viewport_extent: words.number(3),
        style: KineticScrollStyle::of(words, 4),
    }
}

/// The offset after a drag.
pub fn drag(call: &[u32; 8]) -> [u32; 1] {
    let words = Words(call);
    [of_number(
        physics(words).drag(words.number(7), words.number(8)),
    )]
}

/// Offset and velocity after a step, and whether it moves on.
pub fn step(call: &[u32; 10]) -> [u32; 3] {
    let words = Words(call);
    let (mut offset, mut vel) = (words.number(7), words.number(8));
    let moves = physics(words).step(&mut offset, &mut vel, words.number(9), words.flag(10));
    [of_number(offset), of_number(vel), u32::from(moves)]
}

/// Offset, velocity and the bounce after a turn, and whether it is taken.
pub fn wheel(call: &[u32; 13]) -> [u32; 4] {
    let words = Words(call);
    let (mut offset, mut vel, mut bounced) = (words.number(7), words.number(8), words.flag(13));
    let scroll = WheelScroll {
        delta: words.number(9),
        source: words.source(10),
        can_chain_to_parent: words.flag(11),
        dt: words.number(12),
    };
    let is_taken = physics(words).wheel(&mut offset, &mut vel, scroll, &mut bounced);
    [
        of_number(offset),
        of_number(vel),
        u32::from(bounced),
        u32::from(is_taken),
    ]
}
