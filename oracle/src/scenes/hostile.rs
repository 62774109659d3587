//! Words that a careful host would not send.

use crate::axis_vectors::random_numbers::{near, pick, signed, sized};
use crate::frame_vectors::places::{numbers, FACTORS, NOT_NEGATIVE, PAIRS};
use crate::frame_vectors::random_words::mutated;
use crate::frame_vectors::Frame;
use crate::random::Random;

/// One to three words of any kind, most of which some check turns back.
pub fn spoiled(random: &mut Random, frame: Frame) -> Frame {
    let mutations = 1 + random.below(3);
    (0..mutations).fold(frame, |frame, _| mutated(random, frame))
}

/// Numbers that the checks let pass in most places: zeros, neighbours, tiny and large ones.
pub fn odd(random: &mut Random, frame: Frame) -> Frame {
    let places = numbers();
    let frame = (0..=random.below(4)).fold(frame, |frame, _| {
        let word = places[random.below(places.len())];
        let present = f32::from_bits(frame.word(word));
        let tiny = sized(random, -149, -20).abs();
        let other = sized(random, -20, 20);
        let x = match random.below(6) {
            0 => signed(random, 0.0),
            1 if present.is_finite() => near(random, present),
            2 => -present,
            3 => pick(random, &[tiny, -tiny]),
            4 => pick(random, &[1_048_576.0, other.abs(), 1.0]),
            _ => other,
        };
        frame.with_number(word, allowed(word, x))
    });
    in_order(frame)
}

/// The number, or one like it that check 4 lets pass at that word.
pub fn allowed(word: usize, x: f32) -> f32 {
    if FACTORS.contains(&word) && x != 0.0 {
        x.abs().min(1.0)
    } else if NOT_NEGATIVE.contains(&word) && x != 0.0 {
        x.abs()
    } else {
        x
    }
}

/// The same numbers with every end at or above its start.
pub fn in_order(frame: Frame) -> Frame {
    PAIRS.into_iter().fold(frame, |frame, (start, end)| {
        let (from, to) = (frame.word(start), frame.word(end));
        if f32::from_bits(to) < f32::from_bits(from) {
            frame.with(start, to).with(end, from)
        } else {
            frame
        }
    })
}
