//! Axis calls of a host, and the answers that the documents give them.

mod answers;
mod fixed;
mod fixed_drag;
mod fixed_refusals;
mod fixed_step;
mod fixed_wheel;
mod fixed_wheel_edges;
pub mod fixed_wheel_turns;
mod place;
mod random;
pub(crate) mod random_numbers;
pub(crate) mod scene;

use crate::wheel_law::Turn;
use crate::words::{in_bytes, in_hex};

pub use fixed::fixed_list;
pub use random::random_list;

/// The kinds of calls, with their numbers.
#[derive(Clone, Copy, Debug, PartialEq, Eq)]
pub enum Kind {
    Drag = 1,
    Step = 2,
    Wheel = 3,
}

impl Kind {
    pub const ALL: [Kind; 3] = [Kind::Drag, Kind::Step, Kind::Wheel];

    pub fn name(self) -> &'static str {
        match self {
            Kind::Drag => "drag",
            Kind::Step => "step",
            Kind::Wheel => "wheel",
        }
    }

    /// How many operands the kind takes.
    pub fn used(self) -> usize {
        match self {
            Kind::Drag => 8,
            Kind::Step => 10,
            Kind::Wheel => 13,
        }
    }

    /// The places of the delta and of dt.
    fn moves(self) -> &'static [usize] {
        match self {
            Kind::Drag => &[place::DRAG_DELTA],
            Kind::Step => &[place::STEP_DT],
            Kind::Wheel => &[place::WHEEL_DELTA, place::WHEEL_DT],
        }
    }

    /// The place of dt, where the kind has one.
    fn time(self) -> Option<usize> {
        match self {
            Kind::Drag => None,
            Kind::Step => Some(place::STEP_DT),
            Kind::Wheel => Some(place::WHEEL_DT),
        }
    }

    /// The places of the offset and of the velocity.
    fn held(self) -> &'static [usize] {
        match self {
            Kind::Drag => &[place::OFFSET],
            Kind::Step | Kind::Wheel => &[place::OFFSET, place::VELOCITY],
        }
    }
}

/// One call: its kind, and its operands followed by zeros.
#[derive(Clone, Debug, PartialEq)]
pub struct Call {
    kind: Kind,
    words: [u32; 13],
}

impl Call {
    pub fn kind(&self) -> Kind {
        self.kind
    }

    /// The refusal of this call, 0 where it is accepted.
    pub fn refusal(&self) -> u32 {
        answers::answer(self).0
    }

    /// What a wheel call gives; nothing of another kind.
    pub fn turn(&self) -> Option<Turn> {
        (self.kind == Kind::Wheel).then(|| answers::turn(self))
    }

    /// The operands that the kind takes.
    pub fn operands(&self) -> &[u32] {
        &self.words[..self.kind.used()]
    }

    /// The record that asks: the kind and thirteen words, 56 bytes.
    pub fn input_record(&self) -> Vec<u8> {
        let mut words = vec![self.kind as u32];
        words.extend(self.words);
        in_bytes(&words)
    }

    /// The line that answers: the name, the operands used, the refusal and the answer.
    pub fn output_line(&self) -> String {
        let name = self.kind.name();
        let operands = in_hex(self.operands());
        let (refusal, shown) = answers::answer(self);
        format!("{name}{operands} = {refusal}{shown}\n")
    }

    /// The number at that place.
    fn float(&self, place: usize) -> f32 {
        f32::from_bits(self.words[place])
    }

    /// The same call with another number at that place.
    fn with(&self, place: usize, x: f32) -> Call {
        let mut call = self.clone();
        call.words[place] = x.to_bits();
        call
    }
}

/// A list of calls under construction.
struct List(Vec<Call>);

impl List {
    /// Adds a call, once.
    fn add(&mut self, call: Call) {
        if !self.0.contains(&call) {
            self.0.push(call);
        }
    }
}
