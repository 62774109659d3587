//! Calls on drawers, each on what those before it left: every byte of the drawer and of the state that is handed out is compared.
//!
//! Where nobody else wrote in a drawer since it was laid out, a map from ids to states judges the library's answers too.

use oracle::clock::StateBytes;
use oracle::drawer::{faults, Held, RECORD};
use oracle::drawer_vectors::{Call, Kept, UNWRITTEN};

use crate::guarded::Guarded;
use crate::tally::{End, Part, Tally};

/// The library's side: the drawer, the state of the last call, and how many calls there were.
struct Library {
    drawer: Guarded,
    state: Guarded,
    calls: usize,
}

impl Library {
    /// No bytes; the number of calls so far picks alignments and what stands beside the bytes.
    fn none(calls: usize) -> Library {
        Library {
            drawer: Guarded::of(&[], 0),
            state: Guarded::of(&UNWRITTEN, 0),
            calls,
        }
    }

    /// Lends other bytes.
    fn lend(&mut self, bytes: &[u8]) {
        self.drawer = Guarded::of(bytes, self.calls);
    }

    /// Answers 0 or the refusal.
    fn call(&mut self, call: &Call) -> u32 {
        self.calls += 1;
        let given: &StateBytes = match call {
            Call::Save(_, state) => state,
            _ => &UNWRITTEN,
        };
        self.state = Guarded::of(given, self.calls / 3);
        let drawer = self.drawer.bytes_mut();
        let state: &mut StateBytes = self.state.bytes_mut().try_into().expect("a state's record");
        match call {
            Call::Given(bytes) => {
                self.lend(bytes);
                0
            }
            Call::Put(place, word) => {
                drawer[*place..*place + 4].copy_from_slice(word);
                0
            }
            Call::Lay => strakobud::drawer_lay(drawer),
            Call::Save(id, _) => strakobud::drawer_save(drawer, *id, state),
            Call::Load(id) => strakobud::drawer_load(drawer, *id, state),
            Call::Forget(id) => strakobud::drawer_forget(drawer, *id),
        }
    }

    /// Whether it left what the oracle did, and nothing beside it.
    fn is_like(&self, rust: &Kept, call: &Call) -> bool {
        let state: &[u8] = match call {
            Call::Save(_, state) => &state[..],
            _ => &rust.state,
        };
        self.drawer.bytes() == rust.bytes
            && self.state.bytes() == state
            && self.drawer.is_alone()
            && self.state.is_alone()
    }
}

/// A list of calls, with no drawer at first; after a difference both sides go on from the oracle's.
pub fn compare(tally: &mut Tally, part: Part, list: &[Call], what: &str) {
    let (mut library, mut rust) = (Library::none(tally.compared as usize), Kept::none());
    let mut held = None;
    for (number, call) in list.iter().enumerate() {
        let (refusal, rust_refusal) = (library.call(call), rust.call(call));
        if matches!(call, Call::Given(_) | Call::Put(..)) {
            held = None;
            continue;
        }
        let end = end(&rust, rust_refusal);
        let same = refusal == rust_refusal && library.is_like(&rust, call);
        let name = || format!("{what}, place {number}: {}", call.name());
        tally.count(part, end, same, || {
            let place = first_difference(library.drawer.bytes(), &rust.bytes);
            format!(
                "{}: library {refusal}, oracle {rust_refusal}{place}",
                name()
            )
        });
        judge(tally, &mut held, call, refusal, &library, name);
        if !same {
            library.lend(&rust.bytes);
            held = None;
        }
    }
}

/// How the call ended; a 13 has changed nothing, so that its ground is still there.
fn end(rust: &Kept, refusal: u32) -> End {
    match refusal {
        13 => End::NoDrawer(faults(&rust.bytes)[0]),
        _ => refusal.into(),
    }
}

/// Judges an answer by what the drawer holds, where that is known; after a layout it is.
fn judge(
    tally: &mut Tally,
    held: &mut Option<Held>,
    call: &Call,
    refusal: u32,
    library: &Library,
    name: impl Fn() -> String,
) {
    if matches!(call, Call::Lay) && refusal == 0 {
        *held = Some(Held::fresh(library.drawer.bytes().len() / RECORD));
        return;
    }
    let Some(held) = held else {
        return;
    };
    let mut state = UNWRITTEN;
    let expected = match call {
        Call::Save(id, state) => held.save(*id, state),
        Call::Load(id) => held.load(*id, &mut state),
        Call::Forget(id) => held.forget(*id),
        // A drawer can be laid out again.
        _ => 0,
    };
    let is_state_good = !matches!(call, Call::Load(_)) || library.state.bytes() == state;
    let same = refusal == expected && is_state_good;
    tally.count(Part::HeldDrawers, expected, same, || {
        format!("{}: library {refusal}, by what it holds {expected}", name())
    });
}

/// Where the two drawers differ first, in words.
fn first_difference(drawer: &[u8], rust: &[u8]) -> String {
    let mut places = (0..rust.len()).filter(|place| drawer.get(*place) != rust.get(*place));
    let place = places.next();
    place.map_or(String::new(), |place| {
        let (record, byte) = (place / RECORD, place % RECORD);
        format!(", from byte {byte} of record {record} on")
    })
}
