//! The axis calls.

use oracle::axis_vectors::{fixed_list, random_list, Call, Kind};
use oracle::host_calls;
use oracle::random::Random;

use crate::tables::{name_of, Lent, Pool, Serving};
use crate::tally::{Part, Tally};
use crate::wheel;

/// Calls in one list.
const LIST: u64 = 30_000;

/// The words of a call that are flags or kinds, numbered from 0.
fn flags(kind: Kind) -> &'static [usize] {
    match kind {
        Kind::Drag => &[5],
        Kind::Step => &[5, 9],
        Kind::Wheel => &[5, 9, 10, 12],
    }
}

/// The words of a call: its record begins with the kind.
fn words(call: &Call) -> Vec<u8> {
    call.input_record()[4..].to_vec()
}

/// The same, at times with a flag or a kind outside its values.
fn hostile_words(random: &mut Random, call: &Call) -> Vec<u8> {
    let mut bytes = words(call);
    let places = flags(call.kind());
    if random.below(32) == 0 {
        let flag = places[random.below(places.len())];
        bytes[4 * flag + random.below(4)] = random.below(8) as u8;
    }
    bytes
}

/// The calls that are stored for the gate, then that many that may occur or are hostile; none where none is wanted.
pub fn axis_calls(tally: &mut Tally, seed: u64, count: u64) {
    if count > 0 {
        for call in fixed_list() {
            compare(tally, call.kind(), &words(&call));
        }
    }
    let mut random = Random::new(seed ^ 0x5555);
    let mut done = 0;
    while done < count {
        let list = random_list(random.long(), LIST.min(count - done) as usize);
        for call in &list {
            compare(tally, call.kind(), &hostile_words(&mut random, call));
        }
        done += list.len() as u64;
        tally.progress(Part::Axis.name(), done, count);
    }
}

/// Steps that may occur and hostile ones, in lists.
pub fn step_lists(seed: u64, count: u64) -> impl Iterator<Item = Vec<[u8; 40]>> {
    let mut random = Random::new(seed ^ 0x9999);
    let mut left = count;
    std::iter::from_fn(move || {
        let wanted = left.min(LIST / 3);
        left -= wanted;
        // Every third call is a step.
        let calls = random_list(random.long(), 3 * wanted as usize);
        let steps = calls.iter().filter(|call| call.kind() == Kind::Step);
        let list = steps.map(|call| *first(&hostile_words(&mut random, call)));
        (wanted > 0).then(|| list.collect())
    })
}

/// The same under tables that change now and then.
pub fn steps_under(tally: &mut Tally, pool: &Pool, seed: u64, count: u64) {
    let mut serving = Serving::new(Some(pool), seed);
    let mut done = 0;
    for list in step_lists(seed, count) {
        for call in &list {
            compare_step(tally, call, serving.next());
        }
        done += list.len() as u64;
        tally.progress(Part::StepsUnder.name(), done, count);
    }
}

fn compare_step(tally: &mut Tally, call: &[u8; 40], table: Option<&Lent>) {
    let (mut out, mut rust_out) = ([0xaa; 12], [0xaa; 12]);
    let (refusal, rust_refusal) = match table {
        None => (
            strakobud::step(call, &mut out),
            host_calls::step(call, &mut rust_out),
        ),
        Some(lent) => (
            strakobud::step_by(call, &lent.bytes, &mut out),
            host_calls::step_by(call, lent.entries, &mut rust_out),
        ),
    };
    let same = (refusal, out) == (rust_refusal, rust_out);
    tally.count(Part::StepsUnder, rust_refusal, same, || {
        let name = name_of(table);
        format!("step {call:02x?} under {name}: library {refusal} {out:02x?}, oracle {rust_refusal} {rust_out:02x?}")
    });
}

fn compare(tally: &mut Tally, kind: Kind, bytes: &[u8]) {
    let (mut out, mut rust_out) = ([0xaa; 16], [0xaa; 16]);
    let (refusal, rust_refusal) = match kind {
        Kind::Drag => (
            strakobud::drag(first(bytes), first_mut(&mut out)),
            host_calls::drag(first(bytes), first_mut(&mut rust_out)),
        ),
        Kind::Step => (
            strakobud::step(first(bytes), first_mut(&mut out)),
            host_calls::step(first(bytes), first_mut(&mut rust_out)),
        ),
        Kind::Wheel => (
            strakobud::wheel(first(bytes), &mut out),
            host_calls::wheel(first(bytes), &mut rust_out),
        ),
    };
    let same = (refusal, out) == (rust_refusal, rust_out);
    tally.count(Part::Axis, rust_refusal, same, || {
        let name = kind.name();
        format!("{name} {bytes:02x?}: library {refusal} {out:02x?}, oracle {rust_refusal} {rust_out:02x?}")
    });
    tally.apart.count_axis([&out, &rust_out]);
    if kind == Kind::Wheel {
        wheel::judge(tally, first(bytes), refusal, &out);
    }
}

fn first<const N: usize>(bytes: &[u8]) -> &[u8; N] {
    bytes.first_chunk().expect("a call has that many bytes")
}

fn first_mut<const N: usize>(bytes: &mut [u8]) -> &mut [u8; N] {
    bytes
        .first_chunk_mut()
        .expect("an answer has that many bytes")
}
