//! What egui's text is asked, and what it answers, in 32-bit words.

use crate::axis;
use crate::bits::of_pair;
use crate::containers::scroll_area::State;
use crate::containers::scroll_area::bridge::WORDS;
use crate::frame::{OUTPUTS, frame};

/// The words of a frame.
const FRAME: usize = 104;

/// A kind of question; its number stands ahead of the question in a transcript.
#[derive(Clone, Copy, Debug, PartialEq, Eq)]
pub enum Kind {
    /// The state that egui begins with.
    Fresh,
    /// The shown offset of a state.
    Shown,
    /// A frame on a state.
    Frame,
    Drag,
    Step,
    Wheel,
}

impl Kind {
    pub const ALL: [Kind; 6] = [
        Kind::Fresh,
        Kind::Shown,
        Kind::Frame,
        Kind::Drag,
        Kind::Step,
        Kind::Wheel,
    ];

    /// How many words the question has.
    pub fn asked(self) -> usize {
        match self {
            Kind::Fresh => 0,
            Kind::Shown => WORDS,
            Kind::Frame => WORDS + FRAME,
            Kind::Drag => 8,
            Kind::Step => 10,
            Kind::Wheel => 13,
        }
    }

    /// How many words the answer has.
    pub fn answered(self) -> usize {
        match self {
            Kind::Fresh => WORDS,
            Kind::Shown => 2,
            // Whether there is one, then the state's and the others.
            Kind::Frame => 1 + WORDS + OUTPUTS,
            Kind::Drag => 1,
            Kind::Step => 3,
            Kind::Wheel => 4,
        }
    }
}

/// The answer of egui's text to a question that passed the checks.
pub fn answer(kind: Kind, question: &[u32]) -> Vec<u32> {
    match kind {
        Kind::Fresh => State::default().words().to_vec(),
        Kind::Shown => of_pair(State::of(whole(question)).clamped_offset()).to_vec(),
        Kind::Frame => {
            let (state, words) = question.split_at(WORDS);
            let answer = frame(whole(state), whole(words));
            let words = answer.as_ref().map_or(&[0; WORDS + OUTPUTS], |words| words);
            [&[u32::from(answer.is_some())], &words[..]].concat()
        }
        Kind::Drag => axis::drag(whole(question)).to_vec(),
        Kind::Step => axis::step(whole(question)).to_vec(),
        Kind::Wheel => axis::wheel(whole(question)).to_vec(),
    }
}

fn whole<const N: usize>(words: &[u32]) -> &[u32; N] {
    words
        .try_into()
        .expect("a question has as many words as its kind")
}
