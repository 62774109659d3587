//! The host's clock: forward, standing, back, jumping, and put right again.

use crate::axis_vectors::random_numbers::{between, pick, signed};
use crate::frame_checks::LATEST;
use crate::frame_vectors::Frame;
use crate::random::Random;

#[derive(Clone, Copy)]
enum Pace {
    Forward,
    Standing,
    Back,
    Jumping,
}

pub struct Clock {
    pub time: f64,
    pace: Pace,
    has_begun: bool,
}

impl Default for Clock {
    fn default() -> Clock {
        Clock {
            time: 0.0,
            pace: Pace::Forward,
            has_begun: false,
        }
    }
}

impl Clock {
    /// Another pace, in a few cases another time, which is not later than that one.
    pub fn turn(&mut self, random: &mut Random, latest: f64) {
        self.pace = match random.below(8) {
            0 => Pace::Standing,
            1 => Pace::Back,
            2 => Pace::Jumping,
            _ => Pace::Forward,
        };
        if random.below(8) == 0 {
            // Late times leave few bits for the length of a frame.
            let times = [0.0, 1.0, 100.0, 1e5, 1e8, LATEST];
            let time = times[random.below(times.len())];
            if time <= latest {
                self.time = time;
            }
        }
    }

    /// Not before that time, and forward from there.
    pub fn put_right(&mut self, time: f64) {
        self.time = self.time.max(time);
        self.pace = Pace::Forward;
    }

    /// The frame at the next time.
    pub fn tick(&mut self, random: &mut Random, frame: Frame) -> Frame {
        let dt = dt(random);
        self.pass(random, frame, dt)
    }

    /// The frame at the time that dt leads to; the first one is at 0, and a 0 has either sign.
    pub fn pass(&mut self, random: &mut Random, frame: Frame, dt: f32) -> Frame {
        let passed = match self.pace {
            _ if !self.has_begun => 0.0,
            Pace::Forward => f64::from(dt),
            Pace::Standing => 0.0,
            Pace::Back => -f64::from(dt),
            Pace::Jumping => random.unit() * 4.0 - 2.0,
        };
        self.has_begun = true;
        self.time = (self.time + passed).clamp(0.0, LATEST);
        let shown = match self.time {
            0.0 => signed(random, 0.0).into(),
            time => time,
        };
        frame.with_number(51, dt).with_time(f64::to_bits(shown))
    }
}

/// The length of a frame: mostly a screen's, none, longer than the Rust takes, or up to what it takes.
pub fn dt(random: &mut Random) -> f32 {
    match random.below(12) {
        0 => pick(random, &[0.0, -0.0]),
        1 => pick(random, &[0.1, 0.099_999, 0.25, 1.0, 30.0]),
        2..=4 => between(random, 0.0, 0.1),
        _ => pick(random, &[1.0 / 60.0, 0.016, 1.0 / 120.0, 0.033]),
    }
}
