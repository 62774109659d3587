//! States to save: of scenes, and any words.

use crate::clock::{run, Remembering, StateBytes};
use crate::drawer::{are_flags_good, tidied};
use crate::frame_vectors::{bare, random_state};
use crate::random::Random;
use crate::records::FLAGS;
use crate::scenes::scene_list;
use crate::words::{in_bytes, EDGES};

/// The states that frames of scenes left.
pub struct States(Vec<StateBytes>);

impl States {
    pub fn of_scenes(seed: u64) -> States {
        let frames = scene_list(seed, 300).concat();
        let mut states: Vec<StateBytes> = run(&frames).map(|(left, _)| record_of(&left)).collect();
        states.dedup();
        States(states)
    }

    /// One that a frame left, any words, or what absent options hold too; at times with flags outside their values.
    pub fn any(&self, random: &mut Random) -> StateBytes {
        match random.below(16) {
            0..=4 => self.0[random.below(self.0.len())],
            5 => record_of(&random_state(random, &bare().bytes())),
            6 => record_of(&Remembering::default()),
            7 | 8 => with_words(random, |random| random.one_of(&EDGES)),
            9 => damaged(random),
            10 => bit_set(),
            _ => with_words(random, Random::word),
        }
    }

    /// The same with flags that are 0 or 1, and nothing in absent options.
    pub fn tidy(&self, random: &mut Random) -> StateBytes {
        loop {
            let state = self.any(random);
            if are_flags_good(&state) {
                return tidied(&state);
            }
        }
    }
}

fn record_of(state: &Remembering) -> StateBytes {
    let mut record = [0; 156];
    state.write(&mut record);
    record
}

/// Every bit, but in flags, which are all 1.
pub fn bit_set() -> StateBytes {
    with_flags([0xff; 156], || 1)
}

/// Such words, and flags that are 0 or 1; absent options hold them too.
pub fn with_words(random: &mut Random, word: fn(&mut Random) -> u32) -> StateBytes {
    let words: Vec<u32> = (0..39).map(|_| word(random)).collect();
    let state = in_bytes(&words).try_into().expect("39 words");
    with_flags(state, || random.below(2) as u32)
}

fn with_flags(mut state: StateBytes, mut flag: impl FnMut() -> u32) -> StateBytes {
    for place in FLAGS {
        state[4 * place..][..4].copy_from_slice(&flag().to_le_bytes());
    }
    state
}

/// With a flag outside its values.
fn damaged(random: &mut Random) -> StateBytes {
    let mut state = with_words(random, Random::word);
    let flag = FLAGS[random.below(FLAGS.len())];
    let wrong = random.one_of(&[2, 0x100, 0x0100_0001, 0x8000_0000, u32::MAX]);
    state[4 * flag..][..4].copy_from_slice(&wrong.to_le_bytes());
    state
}
