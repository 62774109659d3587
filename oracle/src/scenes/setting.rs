//! The frame that a scene varies: settings, style and place of an area, with nothing happening.

use crate::axis_vectors::random_numbers::{between, pick, sized};
use crate::frame_vectors::Frame;
use crate::random::Random;
use crate::words::INF;

pub fn setting(random: &mut Random) -> Frame {
    let frame = settings(random, Frame::ZEROS);
    let frame = style(random, frame);
    let frame = place(random, frame);
    let frame = factors(random, frame);
    let frame = content(random, frame);
    bar_place(random, frame)
}

/// One of these words for a flag, in as many cases as it is named.
fn flag(random: &mut Random, frame: Frame, word: usize, values: &[u32]) -> Frame {
    frame.with(word, random.one_of(values))
}

/// Vertical, both, horizontal, or neither.
pub fn directions(random: &mut Random, frame: Frame) -> Frame {
    let [across, down] = match random.below(16) {
        0..=6 => [0, 1],
        7..=12 => [1, 1],
        13 | 14 => [1, 0],
        _ => [0, 0],
    };
    frame.with(1, across).with(2, down)
}

fn settings(random: &mut Random, frame: Frame) -> Frame {
    let frame = directions(random, frame);
    let frame = flag(random, frame, 3, &[0, 1, 1]);
    let frame = flag(random, frame, 4, &[0, 1, 1]);
    let limit = between(random, 20.0, 400.0);
    let frame = frame.with_number(5, pick(random, &[INF, INF, limit]));
    let frame = frame.with_number(6, pick(random, &[INF, INF, limit]));
    let least = between(random, 0.0, 300.0);
    let frame = frame.with_number(7, pick(random, &[64.0, 64.0, 0.0, least]));
    let frame = frame.with_number(8, pick(random, &[64.0, 64.0, 0.0, least]));
    let frame = flag(random, frame, 9, &[0, 1, 1, 2]);
    let frame = flag(random, frame, 19, &[0, 1, 1]);
    let frame = flag(random, frame, 20, &[0, 1, 1, 2]);
    let frame = flag(random, frame, 21, &[0, 1, 1, 1, 1, 1]);
    let factors = [1.0, 1.0, 1.0, 2.5, -1.0, 0.0, -0.0];
    let frame = frame.with_number(22, pick(random, &factors));
    let frame = frame.with_number(23, pick(random, &factors));
    let frame = flag(random, frame, 24, &[0, 0, 1]);
    let frame = flag(random, frame, 25, &[0, 0, 1]);
    flag(random, frame, 26, &[0, 1, 1])
}

fn style(random: &mut Random, frame: Frame) -> Frame {
    let frame = flag(random, frame, 27, &[0, 1]);
    let width = between(random, 4.0, 20.0);
    let frame = frame.with_number(28, pick(random, &[0.0, width, 16.0]));
    let frame = frame.with_number(29, pick(random, &[10.0, width, 0.0]));
    let frame = frame.with_number(30, pick(random, &[4.0, 0.0, 2.5]));
    let frame = frame.with_number(31, pick(random, &[0.0, 2.0, 3.7]));
    let frame = frame.with_number(32, pick(random, &[2.0, width, 0.0]));
    let long = between(random, 0.0, 80.0);
    let frame = frame.with_number(33, pick(random, &[12.0, 12.0, 0.0, long]));
    let spacing = between(random, -10.0, 20.0);
    let frame = frame.with_number(34, pick(random, &[8.0, spacing, 0.0, -0.0]));
    let frame = frame.with_number(35, pick(random, &[3.0, spacing, 0.0, -0.0]));
    let frame = flag(random, frame, 36, &[0, 1]);
    let decay = sized(random, -9, 9).abs();
    let frame = frame.with_number(37, pick(random, &[0.325, 0.5, 1.0, decay]));
    let stop = sized(random, -20, 10).abs();
    let frame = frame.with_number(38, pick(random, &[0.1, 1.0, 0.5, 0.0, stop]));
    flag(random, frame, 39, &[0, 1, 1])
}

/// Where the area lies, what the clip leaves of it, and the host's flags.
pub fn place(random: &mut Random, frame: Frame) -> Frame {
    let left = pick(random, &[0.0, -0.0, 10.0, -30.5, 700.25]);
    let top = pick(random, &[0.0, -0.0, 20.0, -12.25, 333.3]);
    let (width, height) = (between(random, 0.0, 400.0), between(random, 0.0, 300.0));
    let frame = frame.with_numbers(40, &[left, top, left + width, top + height]);
    let margin = match random.below(4) {
        0 => between(random, -60.0, 60.0),
        1 => 100.0,
        _ => 0.0,
    };
    let (right, bottom) = (left + width + margin, top + height + margin);
    let clip = [left - margin, top - margin, right, bottom];
    // A clip that is turned inside out would be refused.
    let clip = [clip[0].min(right), clip[1].min(bottom), right, bottom];
    let frame = frame.with_numbers(44, &clip);
    let frame = flag(random, frame, 48, &[0, 1, 1, 1, 1, 1, 1]);
    let frame = flag(random, frame, 49, &[0, 1, 1]);
    flag(random, frame, 50, &[0, 1])
}

/// The host's animations: bars gone, there, or between; opening and hovering.
pub fn factors(random: &mut Random, frame: Frame) -> Frame {
    (66..=71).fold(frame, |frame, word| {
        let between = random.unit() as f32;
        let factor = pick(random, &[0.0, 1.0, 1.0, between, -0.0]);
        frame.with_number(word, factor)
    })
}

/// Content from smaller than the area to some times as large.
pub fn content(random: &mut Random, frame: Frame) -> Frame {
    let frame = [0, 1].into_iter().fold(frame, |frame, d| {
        let start = f32::from_bits(frame.word(40 + d));
        let size = f32::from_bits(frame.word(42 + d)) - start;
        let times = match random.below(6) {
            0 => between(random, 0.0, 1.0),
            1 => 1.0,
            2 => between(random, 1.0, 1.1),
            _ => between(random, 1.0, 12.0),
        };
        frame.with_number(82 + d, size * times)
    });
    // Of the delta and of both targets.
    [88, 95, 102].into_iter().fold(frame, |frame, word| {
        frame.with_numbers(word, &[1000.0, 0.1, 0.3])
    })
}

/// In some cases a place of its own for the bars.
fn bar_place(random: &mut Random, frame: Frame) -> Frame {
    if random.below(4) != 0 {
        return frame;
    }
    let numbers = [40, 41, 42, 43].map(|word| f32::from_bits(frame.word(word)));
    let [left, top, right, bottom] = numbers;
    let cut = between(random, 0.0, 0.5);
    let (left, top) = (left + cut * (right - left), top + cut * (bottom - top));
    frame
        .with(10, 1)
        .with_numbers(11, &[left, top, right, bottom])
}
