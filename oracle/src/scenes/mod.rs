//! Scenes of use: frames as hosts send them, one list on one state, and hostile words among them.
//!
//! The clock of these hosts is set back now and then. In lists of frames alone some frames are then refused with 12, and the clock is put
//! right; in lists with resets it may go anywhere.

mod bars;
mod chaos;
mod clock;
mod drags;
mod hostile;
mod ordinary;
mod resizes;
mod setting;
mod short_decays;
mod stage;
mod sticking;
mod targets;
mod wheels;

use stage::Stage;

/// What is played in its place of a list.
#[derive(Clone, Debug, PartialEq)]
pub enum Played {
    Frame(Vec<u8>),
    Reset,
}

/// That many frames; the last one is cut short, since only a last part can be.
pub fn scene_list(seed: u64, count: usize) -> Vec<Vec<u8>> {
    frames_of(filled(Stage::new(seed, count, false), scene))
}

/// That many whole frames of drags and flings alone, where exp shows.
pub fn fling_list(seed: u64, count: usize) -> Vec<Vec<u8>> {
    // One more, which is cut short.
    let mut frames = frames_of(filled(Stage::new(seed, count + 1, false), fling));
    frames.truncate(count);
    frames
}

/// That many frames and resets of scenes.
pub fn scenes_with_resets(seed: u64, count: usize) -> Vec<Played> {
    filled(Stage::new(seed, count, true), scene)
}

/// The same of drags and flings alone.
pub fn flings_with_resets(seed: u64, count: usize) -> Vec<Played> {
    filled(Stage::new(seed, count, true), fling)
}

/// That many whole frames and resets, of which some half are of drags and flings.
pub fn half_flings_with_resets(seed: u64, count: usize) -> Vec<Played> {
    // One more, which may be cut short.
    let stage = Stage::new(seed, count + 1, true);
    let mut list = filled(stage, |stage| match stage.random.below(2) {
        0 => fling(stage),
        _ => scene(stage),
    });
    list.truncate(count);
    list
}

fn filled(mut stage: Stage, scene: fn(&mut Stage)) -> Vec<Played> {
    while !stage.is_full() {
        scene(&mut stage);
    }
    stage.finish()
}

fn frames_of(list: Vec<Played>) -> Vec<Vec<u8>> {
    let frame = |played| match played {
        Played::Frame(bytes) => bytes,
        Played::Reset => panic!("a list of frames alone"),
    };
    list.into_iter().map(frame).collect()
}

fn fling(stage: &mut Stage) {
    match stage.random.below(3) {
        0 => drags::touch(stage),
        _ => short_decays::flings(stage),
    }
}

fn scene(stage: &mut Stage) {
    match stage.random.below(22) {
        0..=2 => sticking::growing_list(stage),
        3..=5 => drags::touch(stage),
        6 | 7 => short_decays::flings(stage),
        8..=10 => wheels::gestures(stage),
        11..=13 => bars::presses(stage),
        14 | 15 => bars::presses_on_narrow_bars(stage),
        16 | 17 => targets::jumps(stage),
        18 => targets::clock_over_odd_spans(stage),
        19 => resizes::resizes(stage),
        20 => chaos::zeros(stage),
        _ => chaos::anything(stage),
    }
    ordinary::sometimes(stage);
}
