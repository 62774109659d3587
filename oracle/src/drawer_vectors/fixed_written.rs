//! What somebody else writes in a drawer that is none of 13.

use super::damages::{of_state, turned_at, word};
use super::fixed_honest::numbered;
use super::script::Script;
use crate::drawer::{chains_of, LENGTH_WORD, WORDS};
use crate::records::{FLAGS, OPTIONS};

/// Words behind record 0's, words of free records, of absent options, and numbers: they stay but where a call writes.
pub fn littered(script: &mut Script) {
    script.fresh(5);
    script.save(16, numbered(1));
    script.save(0, [0; 156]);
    for place in LENGTH_WORD + 1..WORDS {
        script.put(&[word(0, place, 0x0101_0101 * place as u32)]);
    }
    for place in 1..WORDS {
        script.put(&[word(3 + place % 2, place, 0xf0f0_f000 + place as u32)]);
    }
    for (flag, words) in OPTIONS {
        for place in flag + 1..=flag + words {
            script.put(&[of_state(2, place, 0x7f80_0000 + place as u32)]);
        }
        script.loads(&[0, 16]);
    }
    let numbers = (0..39).filter(|place| !FLAGS.contains(place));
    for place in numbers.step_by(3) {
        script.put(&[of_state(1, place, 0xffc0_0000 + place as u32)]);
    }
    script.loads(&[16, 0, 32]);
    script.save(32, numbered(3));
    script.forgets(&[16]);
    script.save(1, numbered(4));
    script.loads(&[16, 0, 32, 1]);
    script.save(0, numbered(5));
    script.forgets(&[0, 32, 1]);
}

/// A chain of four with two neighbours turned: every way in and out of it.
pub fn turned_chains(script: &mut Script) {
    let ids = [0, 32, 1 << 32, 1 << 40];
    for place in 0..3 {
        // Turned, an id below all of them, between them, and above them finds its place before the first that is larger.
        for new in [48, (1 << 32) + 16, 1 << 41] {
            script.fresh(17);
            for (number, id) in ids.iter().enumerate() {
                script.save(*id, numbered(number));
            }
            let chain = &chains_of(script.bytes())[0];
            script.put(&turned_at(0, chain, place));
            script.loads(&ids);
            script.save(new, numbered(7));
            script.forgets(&[ids[place], new, ids[place + 1]]);
            script.save(ids[place], numbered(8));
            script.loads(&ids);
        }
    }
}
