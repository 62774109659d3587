//! The input of a frame: words 49 and 51 to 65.

use crate::words::Words;
use crate::{Pos2, Vec2};

#[derive(Clone, Copy, Debug, PartialEq, Eq)]
pub enum MouseWheelSource {
    Unknown,
    Wheel,
    Trackpad,
    Momentum,
}

pub struct PointerState {
    latest_pos: Option<Pos2>,
    delta: Vec2,
    velocity: Vec2,
}

impl PointerState {
    pub fn latest_pos(&self) -> Option<Pos2> {
        self.latest_pos
    }

    pub fn delta(&self) -> Vec2 {
        self.delta
    }

    pub fn velocity(&self) -> Vec2 {
        self.velocity
    }
}

pub struct InputState {
    pub stable_dt: f32,
    pub time: f64,
    pub pointer: PointerState,
    pub smooth_scroll_delta: Vec2,
    scroll_source: Option<MouseWheelSource>,
    has_touch_screen: bool,
}

impl InputState {
    pub(crate) fn of(words: Words) -> InputState {
        InputState {
            stable_dt: words.number(51),
            time: words.double(52),
            pointer: PointerState {
                latest_pos: words.option(54, Words::point),
                delta: words.pair(57),
                velocity: words.pair(59),
            },
            smooth_scroll_delta: words.pair(64),
            scroll_source: words.source(63),
            has_touch_screen: words.flag(49),
        }
    }

    pub fn smooth_scroll_delta(&self) -> Vec2 {
        self.smooth_scroll_delta
    }

    pub fn scroll_source(&self) -> Option<MouseWheelSource> {
        self.scroll_source
    }

    pub fn has_touch_screen(&self) -> bool {
        self.has_touch_screen
    }
}
