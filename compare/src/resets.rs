//! Resets of records: in their places among frames, and of any bytes.

use oracle::clock::StateBytes;
use oracle::frame_vectors::{bare, random_state};
use oracle::host_calls;
use oracle::random::Random;

use crate::frames::damage;
use crate::tally::{Part, Tally};

/// Resets between two signs of progress.
const SHOWN: u64 = 100_000;

/// Of records that a state gives, of such with a damaged flag, and of any bytes at all.
pub fn of_records(tally: &mut Tally, seed: u64, count: u64) {
    let mut random = Random::new(seed ^ 0x4444);
    for done in 1..=count {
        let mut state = [0; 156];
        match random.below(4) {
            0 => state.fill_with(|| random.word() as u8),
            kind => {
                random_state(&mut random, &bare().bytes()).write(&mut state);
                if kind == 1 {
                    damage(&mut random, &mut state);
                }
            }
        }
        compare(tally, state, || format!("{state:02x?}"));
        if done % SHOWN == 0 || done == count {
            tally.progress(Part::Resets.name(), done, count);
        }
    }
}

/// One reset; answers what the oracle leaves.
pub fn compare(tally: &mut Tally, state: StateBytes, what: impl Fn() -> String) -> StateBytes {
    let (mut library, mut rust) = (state, state);
    strakobud::reset(&mut library);
    host_calls::reset(&mut rust);
    tally.count(Part::Resets, 0, library == rust, || {
        format!(
            "reset of {}: library {library:02x?}, oracle {rust:02x?}",
            what()
        )
    });
    rust
}
