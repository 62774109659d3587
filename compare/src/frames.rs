//! Frames on states.
//!
//! The Rust knows neither the remembered time nor 12, so a comparison with it leaves both out: the oracle hands the Rust the first 37 words of a
//! record and never the other two. Where its model of the clock (oracle/src/clock.rs) says 12, the Rust is not asked: the library's refusal and
//! its untouched buffers are compared with that model alone, and counted under 12. In half of these cases both sides are then reset and the
//! same frame is called again, so that the Rust judges it too. The last two words of every record left are compared with the model.

use std::thread;

use oracle::clock::StateBytes;
use oracle::frame_vectors::random_state;
use oracle::host_calls;
use oracle::random::Random;
use oracle::records::{OutBytes, FLAGS};
use oracle::scenes::{flings_with_resets, scenes_with_resets, Played};

use crate::resets;
use crate::tables::{name_of, Lent, Pool, Serving};
use crate::tally::{Part, Tally};

/// Frames and resets in one list of scenes.
pub const LIST: usize = 20_000;

/// What a buffer holds that no call has written.
const UNWRITTEN: u8 = 0xaa;

/// The buffers of one side.
#[derive(Clone, Copy, PartialEq, Debug)]
pub struct Side {
    pub state: StateBytes,
    out: OutBytes,
    offset: [u8; 8],
    pub refusal: u32,
    offset_refusal: u32,
    bad_word: u32,
}

impl Side {
    pub fn on(state: StateBytes) -> Side {
        Side {
            state,
            out: [UNWRITTEN; 100],
            offset: [UNWRITTEN; 8],
            refusal: 0,
            offset_refusal: 0,
            bad_word: 0,
        }
    }

    pub fn library(mut self, frame: &[u8], table: Option<&Lent>) -> Side {
        let (state, out) = (&mut self.state, &mut self.out);
        self.refusal = match table {
            None => strakobud::frame(state, frame, out),
            Some(lent) => strakobud::frame_by(state, frame, &lent.bytes, out),
        };
        self.offset_refusal = strakobud::offset(&self.state, &mut self.offset);
        self.bad_word = strakobud::bad_word(frame);
        self
    }

    /// The Rust, and the model of the clock around it.
    fn rust(mut self, frame: &[u8], table: Option<&Lent>) -> Side {
        let (state, out) = (&mut self.state, &mut self.out);
        self.refusal = match table {
            None => host_calls::frame(state, frame, out),
            Some(lent) => host_calls::frame_by(state, frame, lent.entries, out),
        };
        self.offset_refusal = host_calls::offset(&self.state, &mut self.offset);
        self.bad_word = host_calls::bad_word(frame);
        self
    }
}

/// A list, made in a thread of its own: the branches that it meets while it is made do not count.
pub fn made<A: Send + 'static>(list: impl FnOnce() -> Vec<A> + Send + 'static) -> Vec<A> {
    thread::spawn(list).join().expect("the list is made")
}

/// A list of scenes.
pub fn scenes(seed: u64, count: usize) -> Vec<Played> {
    made(move || scenes_with_resets(seed, count))
}

/// A list of scenes; under tables every other one is of flings, where they show.
fn list_for(pool: Option<&Pool>, seed: u64, count: usize) -> Vec<Played> {
    let is_even = (seed / LIST as u64).is_multiple_of(2);
    match pool {
        Some(_) if is_even => made(move || flings_with_resets(seed, count)),
        _ => scenes(seed, count),
    }
}

/// Lists of scenes, each from a fresh state; after a difference both sides go on from the oracle's state.
pub fn from_fresh_states(tally: &mut Tally, pool: Option<&Pool>, seed: u64, count: u64) {
    let part = pool.map_or(Part::Fresh, |_| Part::FreshUnder);
    let mut serving = Serving::new(pool, seed);
    let mut done = 0;
    while done < count {
        let list_seed = seed.wrapping_add(done);
        let list = list_for(pool, list_seed, LIST.min((count - done) as usize));
        let mut state = fresh_state(tally, part);
        for (number, played) in list.iter().enumerate() {
            let what = || format!("list of seed {list_seed}, place {number}");
            state = match played {
                Played::Frame(frame) => {
                    compare(tally, part, state, frame, serving.next(), what).state
                }
                // Also the one that follows on 12, ahead of the same frame.
                Played::Reset => resets::compare(tally, state, what),
            };
        }
        done += list.len() as u64;
        tally.progress(part.name(), done, count);
    }
}

/// The oracle's, compared with the library's.
fn fresh_state(tally: &mut Tally, part: Part) -> StateBytes {
    let (mut fresh, mut rust_fresh) = ([UNWRITTEN; 156], [UNWRITTEN; 156]);
    strakobud::fresh(&mut fresh);
    host_calls::fresh(&mut rust_fresh);
    tally.count(part, 0, fresh == rust_fresh, || {
        "the fresh state".to_owned()
    });
    rust_fresh
}

/// A flag outside its values, or another byte in one.
pub fn damage(random: &mut Random, state: &mut StateBytes) {
    let flag = FLAGS[random.below(FLAGS.len())];
    state[4 * flag + random.below(4)] = 1 + random.below(255) as u8;
}

/// A state for that frame, at times one with a number that is not finite or a damaged flag.
fn arbitrary_state(random: &mut Random, frame: &[u8]) -> StateBytes {
    let mut state = [UNWRITTEN; 156];
    random_state(random, frame).write(&mut state);
    if random.below(64) == 0 {
        damage(random, &mut state);
    }
    state
}

/// The frames of a list, at times with another length.
fn frames_of(random: &mut Random, list: Vec<Played>) -> Vec<Vec<u8>> {
    let frame = |played| match played {
        Played::Reset => None,
        Played::Frame(mut bytes) => {
            if random.below(64) == 0 {
                bytes.resize(400 + random.below(32), 0);
            }
            Some(bytes)
        }
    };
    list.into_iter().filter_map(frame).collect()
}

/// Each frame on a state of its own.
pub fn from_arbitrary_states(tally: &mut Tally, pool: Option<&Pool>, seed: u64, count: u64) {
    let part = pool.map_or(Part::Arbitrary, |_| Part::ArbitraryUnder);
    let mut serving = Serving::new(pool, !seed);
    let mut random = Random::new(!seed);
    let mut done = 0;
    while done < count {
        let list = list_for(pool, random.long(), LIST.min((count - done) as usize));
        for frame in &frames_of(&mut random, list) {
            let state = arbitrary_state(&mut random, frame);
            let table = serving.next();
            let what = |state| move || format!("{state:02x?} {frame:02x?}");
            let rust = compare(tally, part, state, frame, table, what(state));
            // 6 may have been the remembered time's.
            if [6, 12].contains(&rust.refusal) && random.below(2) == 0 {
                let state = resets::compare(tally, state, what(state));
                compare(tally, part, state, frame, table, what(state));
            }
            done += 1;
        }
        tally.progress(part.name(), done, count);
    }
}

fn compare(
    tally: &mut Tally,
    part: Part,
    state: StateBytes,
    frame: &[u8],
    table: Option<&Lent>,
    what: impl Fn() -> String,
) -> Side {
    let library = Side::on(state).library(frame, table);
    let rust = Side::on(state).rust(frame, table);
    tally.count(part, rust.refusal, library == rust, || {
        let (what, name) = (what(), name_of(table));
        format!("{what} under {name}: library {library:02x?}, oracle {rust:02x?}")
    });
    tally.apart.count_frame(
        [&library.state, &rust.state],
        [&library.out, &rust.out],
        [&library.offset, &rust.offset],
    );
    rust
}
