//! The target that hung: a clock that is set back while a list is on its way to a scroll target.
//!
//! What a person notices: a tap asks for a place far down the list, and the list begins to glide there. In the middle of the glide the
//! panel's clock is corrected by five minutes. The list stops short of the place and stands, and since the glide is not over the panel draws
//! frame after frame of it; five minutes later, by the corrected clock, it glides on by itself. So it is in egui alone, whose target has its
//! span of time on the old clock. Now the host hears 12 with the first frame after the correction. It resets, and the same frame goes
//! through; the list stands where it stood, since a reset touches nothing but the remembered time, until a turn of the wheel gives the target
//! up and moves the list at once. The next tap glides to its place by the new clock.

use super::lists::{list, SCREEN};
use super::Record;
use crate::frame_vectors::Frame;

/// When the tap comes.
const TAP: f64 = 1000.0;

/// By how much the clock is set back.
const BACK: f64 = 300.0;

/// Frames of the glide before the clock is set back, the one of the tap included.
const GLIDE: u32 = 10;

/// Frames after it that the host sends before it resets.
const UNHEARD: u32 = 4;

/// A screen's frames from that time on.
fn paced(frame: Frame, start: f64, count: u32) -> impl Iterator<Item = Frame> {
    let time = move |i| start + f64::from(i) * SCREEN;
    (0..count).map(move |i| frame.with_time(time(i).to_bits()))
}

/// A list of 4,000 points in a view of 100, animated, with the wheel and the pointer over it.
fn long_list() -> Frame {
    list()
        .with_all([21, 26, 48, 54], 1)
        .with_numbers(22, &[1.0, 1.0])
        .with_numbers(55, &[50.0, 50.0])
        .with_number(83, 4000.0)
}

/// Asks for a place 2,000 points further down, with egui's own animation: three tenths of a second at the most.
fn tapped(frame: Frame) -> Frame {
    let frame = frame.with_number(87, -2000.0);
    frame.with_numbers(88, &[1000.0, 0.1, 0.3])
}

/// A notch of the wheel by 50 points further down.
fn turned(frame: Frame) -> Frame {
    frame.with(63, 2).with_number(65, -50.0)
}

/// The list at rest, the tap and the glide, and the frames after the clock was set back.
fn until_set_back() -> Vec<Frame> {
    let list = long_list();
    let mut frames: Vec<Frame> = paced(list, TAP - 2.0 * SCREEN, 2).collect();
    frames.extend(paced(tapped(list), TAP, 1));
    frames.extend(paced(list, TAP + SCREEN, GLIDE - 1));
    let set_back = TAP - BACK + f64::from(GLIDE) * SCREEN;
    frames.extend(paced(list, set_back, UNHEARD));
    frames
}

/// The host hears of 12: a reset, the last frame again and two more, a turn of the wheel, and another tap.
fn with_one_reset() -> Vec<Record> {
    let (list, frames) = (long_list(), until_set_back());
    let mut records = vec![Record::Fresh];
    records.extend(frames.iter().map(Record::frame));
    records.push(Record::Reset);
    records.extend(frames.last().map(Record::frame));
    let next = TAP - BACK + f64::from(GLIDE + UNHEARD) * SCREEN;
    let mut after: Vec<Frame> = paced(list, next, 2).collect();
    after.extend(paced(turned(list), next + 2.0 * SCREEN, 1));
    after.extend(paced(list, next + 3.0 * SCREEN, 2));
    after.extend(paced(tapped(list), next + 5.0 * SCREEN, 1));
    after.extend(paced(list, next + 6.0 * SCREEN, 20));
    records.extend(after.iter().map(Record::frame));
    records
}

/// The same frames with a reset ahead of each, which is egui alone, and some more until the old clock's times have come again.
fn with_a_reset_ahead_of_each() -> Vec<Record> {
    let (list, mut frames) = (long_list(), until_set_back());
    for time in [750.0, 850.0, 950.0, TAP - 2.0 * SCREEN] {
        frames.extend(paced(list, time, 2));
    }
    frames.extend(paced(list, TAP, 20));
    let with_reset = |frame: &Frame| [Record::Reset, Record::frame(frame)];
    let mut records = vec![Record::Fresh];
    records.extend(frames.iter().flat_map(with_reset));
    records
}

pub fn hung_target() -> Vec<Record> {
    [with_one_reset(), with_a_reset_ahead_of_each()].concat()
}
