//! Buffers of other lengths, and the smallest drawer.

use super::script::Script;
use super::states::bit_set;
use super::{Call, UNWRITTEN};
use crate::drawer::{lay, save, RECORD};

/// Around no record, one, and two.
const LENGTHS: [usize; 11] = [0, 1, 4, 167, 168, 169, 335, 336, 337, 503, 505];

/// The beginning of a drawer with a state in it, cut or made longer: every call on each, 6 ahead of 13 among them.
pub fn lengths(script: &mut Script) {
    let mut drawer = vec![0; 3 * RECORD];
    lay(&mut drawer);
    save(&mut drawer, 16, &bit_set());
    for length in LENGTHS {
        let mut bytes = drawer.clone();
        bytes.resize(length, 0);
        script.call(Call::Given(bytes));
        every_call(script, 16);
        script.call(Call::Lay);
        every_call(script, 16);
    }
}

/// A load, a save, a save that is 6 by itself, and a forget.
fn every_call(script: &mut Script, id: u64) {
    script.loads(&[id]);
    script.save(id, bit_set());
    script.save(id, UNWRITTEN);
    script.loads(&[id]);
    script.forgets(&[id]);
}

/// "from 1": one record alone has no room; two have room for one state.
pub fn one_record(script: &mut Script) {
    for records in [1, 2] {
        script.fresh(records);
        for id in [0, 1, 16, u64::MAX] {
            every_call(script, id);
        }
        script.save(0, bit_set());
        every_call(script, 1 << 32);
        script.loads(&[0]);
    }
}
