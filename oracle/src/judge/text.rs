//! The answers of egui's own text, asked and given in words.

use egui::Kind;

use crate::frame_call::Output;
use crate::frame_state::State;
use crate::records::{read_output, read_state, state_words, Writer, RUST_BYTES};
use crate::scroll_physics::AxisPhysics;
use crate::wheel_law::Turn;
use crate::words::{from_bytes, in_bytes};

use super::{transcript, Moved, Taken};

fn ask(kind: Kind, question: &[u32]) -> Vec<u32> {
    let answer = egui::answer(kind, question);
    transcript::add(kind, question, &answer);
    answer
}

pub fn fresh() -> State {
    state_of(&ask(Kind::Fresh, &[]))
}

pub fn shown(state: &State) -> [f32; 2] {
    let words = ask(Kind::Shown, &state_words(state));
    [0, 1].map(|d| f32::from_bits(words[d]))
}

pub fn frame(state: State, bytes: &[u8]) -> Output {
    let question = [&state_words(&state)[..], &from_bytes(bytes)].concat();
    let words = ask(Kind::Frame, &question);
    // Whether the clamp of a press let it come to an end, the state, the others.
    let (ended, words) = words.split_first().expect("a word");
    if *ended == 0 {
        return Output::refused(7, state);
    }
    let (left, others) = words.split_at(RUST_BYTES / 4);
    let others = in_bytes(others).try_into().expect("25 words");
    read_output(state_of(left), &others).unless_8(state)
}

fn state_of(words: &[u32]) -> State {
    let record = in_bytes(words).try_into().expect("37 words");
    read_state(&record).expect("flags are 0 or 1")
}

pub fn drag(axis: &AxisPhysics, offset: f32, delta: f32) -> f32 {
    let question = question::<32>(|writer| {
        writer.axis(axis);
        writer.number(offset);
        writer.number(delta);
    });
    f32::from_bits(ask(Kind::Drag, &question)[0])
}

pub fn step(axis: &AxisPhysics, offset: f32, velocity: f32, dt: f32, hold: bool) -> Moved {
    let question = question::<40>(|writer| {
        writer.axis(axis);
        writer.number(offset);
        writer.number(velocity);
        writer.number(dt);
        writer.flag(hold);
    });
    let words = ask(Kind::Step, &question);
    Moved {
        offset: f32::from_bits(words[0]),
        velocity: f32::from_bits(words[1]),
        answer: words[2] == 1,
    }
}

pub fn wheel(turn: &Turn) -> Taken {
    let question = question::<52>(|writer| {
        writer.axis(&turn.axis);
        writer.number(turn.offset);
        writer.number(turn.velocity);
        writer.scroll(&turn.scroll);
        writer.flag(turn.bounced);
    });
    let words = ask(Kind::Wheel, &question);
    Taken {
        offset: f32::from_bits(words[0]),
        velocity: f32::from_bits(words[1]),
        bounced: words[2] == 1,
        answer: words[3] == 1,
    }
}

/// The words of a record of that many bytes.
fn question<const BYTES: usize>(write: impl FnOnce(&mut Writer)) -> Vec<u32> {
    let mut record = [0; BYTES];
    write(&mut Writer::on(&mut record));
    from_bytes(&record)
}
