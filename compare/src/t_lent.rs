//! T lent against the calls without a table, the library against itself.

use oracle::scenes::Played;

use crate::calls::step_lists;
use crate::frames::{scenes, Side, LIST};
use crate::tables::Lent;
use crate::tally::{Part, Tally};

/// Lists of scenes, each from a fresh state; after a difference both go on from the state without a table.
pub fn frames(tally: &mut Tally, t: &Lent, seed: u64, count: u64) {
    let mut done = 0;
    while done < count {
        let list_seed = seed.wrapping_add(done);
        let list = scenes(list_seed, LIST.min((count - done) as usize));
        let mut state = [0; 156];
        strakobud::fresh(&mut state);
        for (number, played) in list.iter().enumerate() {
            let Played::Frame(frame) = played else {
                strakobud::reset(&mut state);
                continue;
            };
            let none = Side::on(state).library(frame, None);
            let lent = Side::on(state).library(frame, Some(t));
            tally.count(Part::TLent, none.refusal, lent == none, || {
                let place = format!("list of seed {list_seed}, place {number}");
                format!("{place}: T lent {lent:02x?}, none {none:02x?}")
            });
            state = none.state;
        }
        done += list.len() as u64;
        tally.progress("frames, T lent against no table", done, count);
    }
}

/// Steps that may occur and hostile ones.
pub fn steps(tally: &mut Tally, t: &Lent, seed: u64, count: u64) {
    let mut done = 0;
    for list in step_lists(!seed, count) {
        for call in &list {
            let (mut none, mut lent) = ([0xaa; 12], [0xaa; 12]);
            let refusal = strakobud::step(call, &mut none);
            let lent_refusal = strakobud::step_by(call, &t.bytes, &mut lent);
            let same = (refusal, none) == (lent_refusal, lent);
            tally.count(Part::TLent, refusal, same, || {
                format!("step {call:02x?}: T lent {lent_refusal} {lent:02x?}, none {refusal} {none:02x?}")
            });
        }
        done += list.len() as u64;
        tally.progress("steps, T lent against no table", done, count);
    }
}
