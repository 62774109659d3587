//! Where scenes are played: the state that the frames so far have left.

use super::clock::{dt, Clock};
use super::hostile::{odd, spoiled};
use super::ordinary::placed;
use super::setting::setting;
use super::Played;
use crate::axis_vectors::random_numbers::between;
use crate::clock::Remembering;
use crate::frame_checks::{time, LATEST};
use crate::frame_vectors::Frame;
use crate::random::Random;
use crate::rectangles::Rect;

/// What is played, and what the next frames can look at.
pub struct Stage {
    pub random: Random,
    pub state: Remembering,
    /// Of the last frame that was not turned back.
    pub handle_rects: [Option<Rect>; 2],
    pub clock: Clock,
    has_resets: bool,
    played: Vec<Played>,
    wanted: usize,
}

impl Stage {
    pub fn new(seed: u64, wanted: usize, has_resets: bool) -> Stage {
        Stage {
            random: Random::new(seed),
            state: Remembering::default(),
            handle_rects: [None; 2],
            clock: Clock::default(),
            has_resets,
            played: Vec::new(),
            wanted,
        }
    }

    pub fn is_full(&self) -> bool {
        self.played.len() >= self.wanted
    }

    /// One case of that many.
    pub fn one_in(&mut self, cases: usize) -> bool {
        self.random.below(cases) == 0
    }

    /// The frame that a new scene varies.
    pub fn setting(&mut self) -> Frame {
        let latest = self.latest();
        self.clock.turn(&mut self.random, latest);
        setting(&mut self.random)
    }

    /// How late a scene may begin: without resets no time comes again, so that the latest are left for the list's end.
    fn latest(&self) -> f64 {
        let is_near_end = 16 * self.played.len() >= 15 * self.wanted;
        if self.has_resets || is_near_end {
            LATEST
        } else {
            self.clock.time + 100.0
        }
    }

    /// The clock at that time, or where no reset would follow at the remembered one if that is later.
    pub fn set_clock(&mut self, time: f64) {
        let first = if self.has_resets {
            0.0
        } else {
            self.state.time
        };
        self.clock.time = time.max(first);
    }

    /// The first frame of a scene, in half of the cases with an explicit offset somewhere in the content.
    pub fn open(&mut self, frame: Frame) {
        let number = |word| f32::from_bits(frame.word(word));
        let [x, y] = [0, 1].map(|d| {
            let area = number(42 + d) - number(40 + d);
            between(&mut self.random, 0.0, (number(82 + d) - area).max(0.0))
        });
        let frame = if self.one_in(2) {
            placed(frame, x, y)
        } else {
            frame
        };
        self.play(frame);
    }

    /// One frame at the next time, with the content where the offset puts it; in some cases worse.
    pub fn play(&mut self, frame: Frame) {
        let dt = dt(&mut self.random);
        self.play_for(frame, dt);
    }

    /// The same for that dt.
    pub fn play_for(&mut self, frame: Frame, dt: f32) {
        let frame = self.clock.pass(&mut self.random, frame, dt);
        let frame = self.scrolled(frame);
        let frame = match self.random.below(32) {
            0 | 1 => {
                let spoiled = spoiled(&mut self.random, frame);
                self.not_too_late(spoiled)
            }
            2..=4 => odd(&mut self.random, frame),
            _ => frame,
        };
        self.play_as_it_is(frame);
    }

    /// The frame, at the clock's time where its own would leave no later one for the rest of the list.
    fn not_too_late(&self, frame: Frame) -> Frame {
        let is_too_late = |time| self.latest() < time && time <= LATEST;
        if is_too_late(time(&frame.bytes())) {
            frame.with_time(self.clock.time.to_bits())
        } else {
            frame
        }
    }

    /// One frame that nothing is changed about; where it is refused, at times again with the clock set back.
    pub fn play_as_it_is(&mut self, frame: Frame) {
        match self.add(frame) {
            0 => {}
            12 => self.hear_of_clock(frame),
            _ if self.one_in(4) => {
                let earlier = self.random.unit() * self.state.time;
                let frame = frame.with_time(earlier.to_bits());
                if self.add(frame) == 12 {
                    self.hear_of_clock(frame);
                }
            }
            _ => {}
        }
        if self.has_resets && self.one_in(100) {
            self.reset();
        }
    }

    /// After 12 the host resets the state and sends the frame again, or puts its clock right, or heeds nothing.
    fn hear_of_clock(&mut self, frame: Frame) {
        if self.has_resets && self.one_in(2) {
            self.reset();
            self.add(frame);
        } else if self.one_in(2) {
            self.clock.put_right(self.state.time);
        }
    }

    /// Answers the refusal; nothing is added to a list that is full.
    fn add(&mut self, frame: Frame) -> u32 {
        if self.is_full() {
            return 0;
        }
        let output = self.state.frame(&frame.bytes());
        if output.refusal == 0 {
            self.handle_rects = output.handle_rects;
        }
        self.played.push(Played::Frame(frame.bytes()));
        output.refusal
    }

    fn reset(&mut self) {
        if !self.is_full() {
            self.state.reset();
            self.played.push(Played::Reset);
        }
    }

    /// Content that begins before the area by the offset, where check 3 lets it.
    fn scrolled(&self, frame: Frame) -> Frame {
        (0..2).fold(frame, |frame, d| {
            let start = f32::from_bits(frame.word(40 + d));
            let min = (start - self.state.egui.offset[d]).clamp(-1e6, 1e6);
            frame.with_number(84 + d, min)
        })
    }

    /// The list; a frame at its end is cut short unless it is all there is.
    pub fn finish(mut self) -> Vec<Played> {
        if let [_, .., Played::Frame(last)] = &mut self.played[..] {
            last.truncate(1 + self.random.below(415));
        }
        self.played
    }
}
