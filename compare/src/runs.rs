//! Settling runs.

use oracle::random::Random;
use oracle::run_vectors::{arbitrary_calls, fixed_calls, fixed_runs, on_any_record, scene_calls};
use oracle::run_vectors::{Call, Left, Run};

use crate::bad_words;
use crate::frames::made;
use crate::judge::IS_EGUI;
use crate::tables::{name_of, Lent, Pool, Serving};
use crate::tally::{End, Part, Tally};

/// Runs in one list.
const LIST: u64 = 5_000;

/// What the library leaves.
fn library(given: &Run, table: Option<&Lent>) -> Left {
    let (mut state, mut used) = (given.state, given.used);
    let refusal = match table {
        None => strakobud::settle(&mut state, &given.frame, &given.run, &mut used),
        Some(lent) => {
            strakobud::settle_by(&mut state, &given.frame, &lent.bytes, &given.run, &mut used)
        }
    };
    Left {
        refusal,
        state,
        used,
    }
}

/// How the run ended.
fn end(given: &Run, left: &Left) -> End {
    let used = u32::from_le_bytes(left.used);
    match left.refusal {
        // What the buffer holds before the call is more than any run uses.
        refusal if left.used == given.used => refusal.into(),
        0 if used < given.limit() => End::Rests,
        0 => End::AtLimit,
        refusal if used == 0 => End::FirstRefused(refusal),
        // No time of a run is before the one that its frame before left.
        12 => panic!("12 inside {}", in_words(given)),
        refusal => End::LaterRefused(refusal),
    }
}

/// The runs that are stored for the gate, and those of them on states once more, on any records.
fn stored_runs(random: &mut Random) -> Vec<Run> {
    let mut runs = made(fixed_runs);
    let calls = made(fixed_calls);
    runs.extend(calls.iter().map(|call| on_any_record(random, call)));
    runs
}

/// Of scenes and on arbitrary states by turns.
fn random_runs(random: &mut Random, number: u64, count: usize) -> Vec<Run> {
    let seed = random.long();
    let calls = match number % 2 {
        0 => made(move || scene_calls(seed, count)),
        _ => made(move || arbitrary_calls(seed, count)),
    };
    let run = |call: &Call| on_any_record(random, call);
    calls.iter().map(run).collect()
}

/// The fixed runs, and that many random ones in lists; none where none is wanted.
fn lists(seed: u64, count: u64) -> impl Iterator<Item = Vec<Run>> {
    let mut random = Random::new(seed ^ 0x7777);
    let numbers = 0..count.div_ceil(LIST);
    let fixed = (count > 0).then(|| stored_runs(&mut random));
    let random_lists = numbers.map(move |number| {
        let wanted = LIST.min(count - number * LIST);
        random_runs(&mut random, number, wanted as usize)
    });
    fixed.into_iter().chain(random_lists)
}

/// The library against the oracle, and with T lent against itself without a table.
pub fn by_t(tally: &mut Tally, t: &Lent, seed: u64, count: u64) {
    let mut done = 0;
    for list in lists(seed, count) {
        for run in &list {
            let none = compare(tally, Part::Runs, run, None);
            if !IS_EGUI {
                bad_words::compare(tally, &run.frame);
                compare_t_lent(tally, t, run, &none);
            }
        }
        done += list.len() as u64;
        tally.progress(Part::Runs.name(), done.min(count), count);
    }
}

/// The library with T lent against what it left with no table.
fn compare_t_lent(tally: &mut Tally, t: &Lent, run: &Run, none: &Left) {
    let lent = library(run, Some(t));
    tally.count(Part::RunsTLent, end(run, none), lent == *none, || {
        let what = in_words(run);
        format!("{what}: T lent {lent:02x?}, none {none:02x?}")
    });
}

/// The library against the oracle under tables that change now and then.
pub fn under_tables(tally: &mut Tally, pool: &Pool, seed: u64, count: u64) {
    let mut serving = Serving::new(Some(pool), seed ^ 0x2222);
    let mut done = 0;
    for list in lists(!seed, count) {
        for run in &list {
            compare(tally, Part::RunsUnder, run, serving.next());
        }
        done += list.len() as u64;
        tally.progress(Part::RunsUnder.name(), done.min(count), count);
    }
}

/// The library's side, compared with the oracle's.
fn compare(tally: &mut Tally, part: Part, run: &Run, table: Option<&Lent>) -> Left {
    let library = library(run, table);
    let rust = run.left(table.map(|lent| lent.entries));
    tally.count(part, end(run, &rust), library == rust, || {
        let (what, name) = (in_words(run), name_of(table));
        format!("{what} under {name}: library {library:02x?}, oracle {rust:02x?}")
    });
    library
}

fn in_words(run: &Run) -> String {
    let Run { state, frame, .. } = run;
    format!("run {:02x?} on {state:02x?} {frame:02x?}", run.run)
}
