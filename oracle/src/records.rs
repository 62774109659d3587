//! Records of 32-bit little-endian words: egui's state, what a frame puts out besides it, and an axis.

use crate::frame_call::Output;
use crate::frame_state::{ScrollingToTarget, State};
use crate::numbers::Rangef;
use crate::rectangles::{Pos2, Rect};
use crate::scroll_physics::{AxisPhysics, KineticScrollStyle, MouseWheelSource, WheelScroll};
use crate::words::from_bytes;

/// How many bytes of a state's record egui's state takes: its first 37 words.
pub const RUST_BYTES: usize = 148;

/// The words of a state's record that are flags, numbered from 0.
pub const FLAGS: [usize; 15] = [4, 10, 16, 17, 18, 19, 20, 21, 24, 26, 28, 29, 30, 35, 36];

/// The options of a state's record: the flag's word, and how many words follow it.
pub const OPTIONS: [(usize, usize); 5] = [(4, 5), (10, 5), (24, 1), (26, 1), (30, 4)];

/// The record of what a frame puts out besides the state.
pub type OutBytes = [u8; 100];

/// Nothing where a flag is neither 0 nor 1; the words of an absent option are ignored.
pub fn read_state(bytes: &[u8; RUST_BYTES]) -> Option<State> {
    let mut reader = Reader::of(bytes);
    Some(State {
        offset: reader.numbers(),
        max_offset: reader.numbers(),
        offset_target: [reader.target()?, reader.target()?],
        show_scroll: reader.flags()?,
        content_is_too_large: reader.flags()?,
        scroll_bar_interaction: reader.flags()?,
        vel: reader.numbers(),
        scroll_start_offset_from_top_left: [reader.press()?, reader.press()?],
        scroll_stuck_to_end: reader.flags()?,
        interact_rect: reader.option()?,
        bounced_this_momentum: reader.flags()?,
    })
}

pub fn write_state(state: &State, bytes: &mut [u8; RUST_BYTES]) {
    let mut writer = Writer::on(bytes);
    writer.numbers(state.offset);
    writer.numbers(state.max_offset);
    for target in state.offset_target {
        writer.target(target);
    }
    writer.flags(state.show_scroll);
    writer.flags(state.content_is_too_large);
    writer.flags(state.scroll_bar_interaction);
    writer.numbers(state.vel);
    for press in state.scroll_start_offset_from_top_left {
        writer.press(press);
    }
    writer.flags(state.scroll_stuck_to_end);
    writer.option(state.interact_rect);
    writer.flags(state.bounced_this_momentum);
}

/// The words of a state's record that are egui's.
pub fn state_words(state: &State) -> [u32; RUST_BYTES / 4] {
    let mut bytes = [0; RUST_BYTES];
    write_state(state, &mut bytes);
    from_bytes(&bytes).try_into().expect("37 words")
}

/// An accepted frame's answer, with the state that it leaves.
pub fn read_output(state: State, bytes: &OutBytes) -> Output {
    let mut reader = Reader::of(bytes);
    let handle = |reader: &mut Reader| reader.option().expect("a flag is 0 or 1");
    Output {
        refusal: 0,
        state,
        content_size: reader.numbers(),
        inner_rect: reader.rect(),
        viewport: reader.rect(),
        handle_rects: [handle(&mut reader), handle(&mut reader)],
        wheel_delta_left: reader.numbers(),
        scroll_delta_left: reader.numbers(),
        repaint: reader.flag().expect("a flag is 0 or 1"),
    }
}

pub fn write_output(output: &Output, bytes: &mut OutBytes) {
    let mut writer = Writer::on(bytes);
    writer.numbers(output.content_size);
    writer.rect(output.inner_rect);
    writer.rect(output.viewport);
    for handle in output.handle_rects {
        writer.option(handle);
    }
    writer.numbers(output.wheel_delta_left);
    writer.numbers(output.scroll_delta_left);
    writer.flag(output.repaint);
}

/// Takes a record's words one after another.
pub struct Reader<'a> {
    rest: &'a [u8],
}

impl Reader<'_> {
    pub fn of(bytes: &[u8]) -> Reader<'_> {
        Reader { rest: bytes }
    }

    pub fn word(&mut self) -> u32 {
        let (word, rest) = self.rest.split_first_chunk().expect("a word is left");
        self.rest = rest;
        u32::from_le_bytes(*word)
    }

    pub fn number(&mut self) -> f32 {
        f32::from_bits(self.word())
    }

    fn numbers(&mut self) -> [f32; 2] {
        [self.number(), self.number()]
    }

    /// The low word first.
    pub fn double(&mut self) -> f64 {
        let low = u64::from(self.word());
        f64::from_bits(u64::from(self.word()) << 32 | low)
    }

    pub fn flag(&mut self) -> Option<bool> {
        match self.word() {
            0 => Some(false),
            1 => Some(true),
            _ => None,
        }
    }

    fn flags(&mut self) -> Option<[bool; 2]> {
        Some([self.flag()?, self.flag()?])
    }

    fn target(&mut self) -> Option<Option<ScrollingToTarget>> {
        let is_there = self.flag()?;
        let target = ScrollingToTarget {
            animation_time_span: (self.double(), self.double()),
            target_offset: self.number(),
        };
        Some(is_there.then_some(target))
    }

    fn press(&mut self) -> Option<Option<f32>> {
        let is_there = self.flag()?;
        let press = self.number();
        Some(is_there.then_some(press))
    }

    fn rect(&mut self) -> Rect {
        let [left, top] = self.numbers();
        let [right, bottom] = self.numbers();
        let (min, max) = (
            Pos2 { x: left, y: top },
            Pos2 {
                x: right,
                y: bottom,
            },
        );
        Rect::from_min_max(min, max)
    }

    fn option(&mut self) -> Option<Option<Rect>> {
        let is_there = self.flag()?;
        let rect = self.rect();
        Some(is_there.then_some(rect))
    }

    /// Nothing where the rubber-band flag is neither 0 nor 1.
    pub fn axis(&mut self) -> Option<AxisPhysics> {
        let [min, max] = self.numbers();
        let viewport_extent = self.number();
        let [decay_time, stop_distance] = self.numbers();
        let rubber_band = self.flag()?;
        Some(AxisPhysics {
            bounds: Rangef::new(min, max),
            viewport_extent,
            style: KineticScrollStyle {
                decay_time,
                stop_distance,
                rubber_band,
            },
        })
    }

    /// Nothing where a flag or the kind is outside its values.
    pub fn scroll(&mut self) -> Option<WheelScroll> {
        Some(WheelScroll {
            delta: self.number(),
            source: self.source()?,
            can_chain_to_parent: self.flag()?,
            dt: self.number(),
        })
    }

    /// Nothing where the kind is outside its values.
    fn source(&mut self) -> Option<Option<MouseWheelSource>> {
        Some(match self.word() {
            0 => None,
            1 => Some(MouseWheelSource::Unknown),
            2 => Some(MouseWheelSource::Wheel),
            3 => Some(MouseWheelSource::Trackpad),
            4 => Some(MouseWheelSource::Momentum),
            _ => return None,
        })
    }
}

/// Writes a record's words one after another.
pub struct Writer<'a> {
    bytes: &'a mut [u8],
    at: usize,
}

impl Writer<'_> {
    pub fn on(bytes: &mut [u8]) -> Writer<'_> {
        Writer { bytes, at: 0 }
    }

    fn word(&mut self, word: u32) {
        self.bytes[self.at..self.at + 4].copy_from_slice(&word.to_le_bytes());
        self.at += 4;
    }

    /// A not-a-number is written as 7fc00000: document 01 has one of them.
    pub fn number(&mut self, x: f32) {
        let x = if x.is_nan() { f32::NAN } else { x };
        self.word(x.to_bits());
    }

    fn numbers(&mut self, pair: [f32; 2]) {
        self.number(pair[0]);
        self.number(pair[1]);
    }

    fn double(&mut self, x: f64) {
        let bits = x.to_bits();
        self.word(bits as u32);
        self.word((bits >> 32) as u32);
    }

    pub fn flag(&mut self, flag: bool) {
        self.word(u32::from(flag));
    }

    fn flags(&mut self, pair: [bool; 2]) {
        self.flag(pair[0]);
        self.flag(pair[1]);
    }

    fn zeros(&mut self, words: usize) {
        (0..words).for_each(|_| self.word(0));
    }

    fn target(&mut self, target: Option<ScrollingToTarget>) {
        let Some(target) = target else {
            return self.zeros(6);
        };
        self.flag(true);
        self.double(target.animation_time_span.0);
        self.double(target.animation_time_span.1);
        self.number(target.target_offset);
    }

    fn press(&mut self, press: Option<f32>) {
        let Some(press) = press else {
            return self.zeros(2);
        };
        self.flag(true);
        self.number(press);
    }

    pub fn axis(&mut self, axis: &AxisPhysics) {
        self.numbers([axis.bounds.min, axis.bounds.max]);
        self.number(axis.viewport_extent);
        self.numbers([axis.style.decay_time, axis.style.stop_distance]);
        self.flag(axis.style.rubber_band);
    }

    pub fn scroll(&mut self, scroll: &WheelScroll) {
        self.number(scroll.delta);
        self.word(scroll.source.map_or(0, |source| 1 + source as u32));
        self.flag(scroll.can_chain_to_parent);
        self.number(scroll.dt);
    }

    fn rect(&mut self, rect: Rect) {
        self.numbers([rect.min.x, rect.min.y]);
        self.numbers([rect.max.x, rect.max.y]);
    }

    fn option(&mut self, rect: Option<Rect>) {
        let Some(rect) = rect else {
            return self.zeros(5);
        };
        self.flag(true);
        self.rect(rect);
    }
}
