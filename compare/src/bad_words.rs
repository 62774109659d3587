//! The bad words of frames by themselves; frames on states have theirs compared with the rest of the answer.

use oracle::frame_checks::{frame_refusal, LENGTH};
use oracle::host_calls;
use oracle::random::Random;
use oracle::sweep_vectors::{fixed_list, random_list};

use crate::frames::{made, LIST};
use crate::tally::{Part, Tally};

/// The frames that are stored for the gate, then that many random ones, at times of another length; none where none is wanted.
pub fn of_frames(tally: &mut Tally, seed: u64, count: u64) {
    if count > 0 {
        for frame in made(fixed_list) {
            compare(tally, &frame);
        }
    }
    let mut random = Random::new(seed ^ 0x6666);
    let mut done = 0;
    while done < count {
        let (list_seed, wanted) = (random.long(), LIST.min((count - done) as usize));
        for mut frame in made(move || random_list(list_seed, wanted)) {
            if random.below(16) == 0 {
                frame.resize(random.below(2 * LENGTH + 1), random.word() as u8);
            }
            compare(tally, &frame);
        }
        done += wanted as u64;
        tally.progress(Part::BadWords.name(), done, count);
    }
}

/// One frame's, counted by the frame's refusal.
pub fn compare(tally: &mut Tally, frame: &[u8]) {
    let (word, rust_word) = (strakobud::bad_word(frame), host_calls::bad_word(frame));
    let refusal = frame_refusal(frame);
    tally.count(Part::BadWords, refusal, word == rust_word, || {
        format!("bad word of {frame:02x?}: library {word}, oracle {rust_word}")
    });
}
