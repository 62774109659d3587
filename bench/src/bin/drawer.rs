//! The library's drawer, full: `drawer CALL ORDER RECORDS COUNT [stack]` makes that call that often on a drawer of so many records
//! and prints the nanoseconds, or the bytes of stack that the deepest one took.
//!
//! The calls are lay; load; save, of an id that is there; renew, that is to forget an id and save it as a new one into the record that
//! is free then; each of the largest id, the last of its chain; read, which sums the buffer in steps of 8 bytes; and nothing. In one
//! record there is no id. The orders are chain, all ids under one head, saved as they ascend; spread, over the 16 heads; mixed, under
//! one head, saved in no order, so that the chain jumps about in the buffer; and falling, a chain that no call makes.

use std::env;
use std::hint::black_box;
use std::time::Instant;

use bench::{depth_of, StateBytes};

const LENGTH: usize = strakobud::DRAWER_RECORD_BYTES;
const HEADS: u64 = 16;

fn main() {
    let arguments: Vec<String> = env::args().collect();
    let [_, call, order, records, count, mode @ ..] = &arguments[..] else {
        panic!("usage: drawer CALL ORDER RECORDS COUNT [stack]")
    };
    let records: usize = records.parse().expect("a number of records");
    let count: usize = count.parse().expect("a count");
    let ids = ids_of(order, records as u64 - 1);
    let id = ids.iter().copied().max().unwrap_or(0);
    let mut state = [0; 156];
    strakobud::fresh(&mut state);
    let mut drawer = full(&ids, order == "falling", &state);
    if order != "falling" && records <= 256 {
        assert!(
            drawer == saved(&ids, &state),
            "the calls make another drawer"
        );
    }
    let refusal = if records == 1 { 14 } else { 0 };
    assert_eq!(strakobud::drawer_load(&drawer, id, &mut state), refusal);
    let make = |call: &mut dyn FnMut() -> u32| {
        let figure = match &mode[..] {
            [] => nanoseconds(count, refusal, call),
            _ => deepest(count, call),
        };
        println!("{figure}");
    };
    match &call[..] {
        "nothing" => make(&mut || refusal),
        "read" => make(&mut || {
            black_box(sum_of(black_box(&drawer)));
            refusal
        }),
        "lay" => make(&mut || strakobud::drawer_lay(&mut drawer)),
        "load" => make(&mut || strakobud::drawer_load(black_box(&drawer), id, &mut state)),
        "save" => make(&mut || strakobud::drawer_save(&mut drawer, id, &state)),
        "renew" => make(&mut || {
            strakobud::drawer_forget(&mut drawer, id)
                + strakobud::drawer_save(&mut drawer, id, &state)
        }),
        _ => panic!("no such call: {call}"),
    }
}

/// The ids in the order in which they are saved.
fn ids_of(order: &str, count: u64) -> Vec<u64> {
    match order {
        "chain" | "falling" => (0..count).map(|i| HEADS * i).collect(),
        "spread" => (0..count).collect(),
        "mixed" => mixed(ids_of("chain", count)),
        _ => panic!("no such order: {order}"),
    }
}

fn mixed(mut ids: Vec<u64>) -> Vec<u64> {
    let mut random = 1u64;
    for last in (1..ids.len()).rev() {
        random = random
            .wrapping_mul(6_364_136_223_846_793_005)
            .wrapping_add(1);
        ids.swap(last, (random >> 33) as usize % (last + 1));
    }
    ids
}

/// What saves make of a fresh drawer; each goes through all records, so that many of them take long.
fn saved(ids: &[u64], state: &StateBytes) -> Vec<u8> {
    let mut drawer = vec![0; LENGTH * (ids.len() + 1)];
    assert_eq!(strakobud::drawer_lay(&mut drawer), 0);
    for &id in ids {
        assert_eq!(strakobud::drawer_save(&mut drawer, id, state), 0);
    }
    drawer
}

/// The same, written by the header's layout; or with the ids falling along their chains.
fn full(ids: &[u64], falling: bool, state: &StateBytes) -> Vec<u8> {
    let mut drawer = vec![0; LENGTH * (ids.len() + 1)];
    let put = |drawer: &mut [u8], word: usize, value: u32| {
        drawer[4 * word..4 * word + 4].copy_from_slice(&value.to_le_bytes());
    };
    put(&mut drawer, 17, LENGTH as u32);
    let mut records: Vec<(u64, usize)> = ids.iter().copied().zip(1..).collect();
    records.sort_unstable();
    if falling {
        records.reverse();
    }
    let mut links: Vec<usize> = (0..HEADS as usize).collect();
    for (id, record) in records {
        let (first, chain) = (LENGTH * record, (id % HEADS) as usize);
        drawer[first + 4..first + 12].copy_from_slice(&id.to_le_bytes());
        drawer[first + 12..first + LENGTH].copy_from_slice(state);
        put(&mut drawer, links[chain], record as u32);
        links[chain] = first / 4;
    }
    drawer
}

#[inline(never)]
fn nanoseconds(count: usize, refusal: u32, call: &mut dyn FnMut() -> u32) -> u64 {
    let begin = Instant::now();
    for _ in 0..count {
        assert_eq!(black_box(call()), refusal);
    }
    begin.elapsed().as_nanos() as u64
}

fn deepest(count: usize, call: &mut dyn FnMut() -> u32) -> u64 {
    let depths = (0..count).map(|_| depth_of(&mut *call));
    depths.max().unwrap_or(0) as u64
}

#[inline(never)]
fn sum_of(bytes: &[u8]) -> u64 {
    let number = |part: &[u8]| u64::from_le_bytes(part.try_into().expect("eight bytes"));
    bytes.chunks_exact(8).map(number).fold(0, u64::wrapping_add)
}
