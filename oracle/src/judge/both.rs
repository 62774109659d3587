//! The answers of egui's own text, to which the port's are held.

use std::cell::Cell;
use std::sync::atomic::{AtomicU64, Ordering};

use egui::Kind;

use crate::frame_call::Output;
use crate::frame_state::State;
use crate::records::state_words;
use crate::scroll_physics::AxisPhysics;
use crate::wheel_law::Turn;
use crate::words::shown as bits;

use super::{port, text, Moved, Taken};

/// Differences that are shown in full.
const SHOWN: u64 = 5;

/// Answers of the port that differ, in all threads: lists are made in threads of their own.
static DIFFERENT: AtomicU64 = AtomicU64::new(0);

thread_local! {
    static HELD: Cell<[u64; Kind::ALL.len()]> = Cell::default();
}

/// How many answers of the port to questions of that kind were held to egui's text, in this thread.
pub fn held(kind: Kind) -> u64 {
    HELD.get()[kind as usize]
}

/// How many answers of the port differ, in all threads.
pub fn different() -> u64 {
    DIFFERENT.load(Ordering::Relaxed)
}

/// Answers what egui's text does; a difference of the port's is counted, and shown where it is among the first.
fn hold<A>(
    kind: Kind,
    [port, own]: [A; 2],
    words: impl Fn(&A) -> Vec<u32>,
    what: impl Fn() -> String,
) -> A {
    let mut held = HELD.get();
    held[kind as usize] += 1;
    HELD.set(held);
    let (port, text) = (words(&port), words(&own));
    if port != text && DIFFERENT.fetch_add(1, Ordering::Relaxed) < SHOWN {
        let what = what();
        println!("different: {kind:?} {what}: port {port:08x?}, egui's text {text:08x?}");
    }
    own
}

pub fn fresh() -> State {
    let words = |state: &State| state_words(state).to_vec();
    hold(
        Kind::Fresh,
        [port::fresh(), text::fresh()],
        words,
        String::new,
    )
}

pub fn shown(state: &State) -> [f32; 2] {
    let words = |pair: &[f32; 2]| pair.map(bits).to_vec();
    let answers = [port::shown(state), text::shown(state)];
    hold(Kind::Shown, answers, words, || format!("of {state:?}"))
}

pub fn frame(state: State, bytes: &[u8]) -> Output {
    let words = |output: &Output| {
        let state = state_words(&output.state);
        [&[output.refusal], &state[..], &output.record()].concat()
    };
    let answers = [port::frame(state, bytes), text::frame(state, bytes)];
    let what = || format!("{bytes:02x?} on {state:?}");
    hold(Kind::Frame, answers, words, what)
}

pub fn drag(axis: &AxisPhysics, offset: f32, delta: f32) -> f32 {
    let answers = [port::drag, text::drag].map(|drag| drag(axis, offset, delta));
    let what = || format!("of {offset:?} by {delta:?} on {axis:?}");
    hold(Kind::Drag, answers, |moved| vec![bits(*moved)], what)
}

pub fn step(axis: &AxisPhysics, offset: f32, velocity: f32, dt: f32, holds: bool) -> Moved {
    let words = |moved: &Moved| {
        let numbers = [bits(moved.offset), bits(moved.velocity)];
        [&numbers[..], &[u32::from(moved.answer)]].concat()
    };
    let answers = [port::step, text::step].map(|step| step(axis, offset, velocity, dt, holds));
    let what = || format!("of {offset:?} at {velocity:?} by {dt:?}, {holds}, on {axis:?}");
    hold(Kind::Step, answers, words, what)
}

pub fn wheel(turn: &Turn) -> Taken {
    let words = |taken: &Taken| {
        let flags = [taken.bounced, taken.answer].map(u32::from);
        [&[bits(taken.offset), bits(taken.velocity)], &flags[..]].concat()
    };
    let answers = [port::wheel(turn), text::wheel(turn)];
    hold(Kind::Wheel, answers, words, || format!("{turn:?}"))
}
