//! Document 02's K5, "The clock may not run backwards": the time that a state remembers. The Rust knows nothing of it.
//!
//! The Rust is handed egui's state alone, which is the first 37 words of a record, and no frame that 12 refuses: document 02's "comparison with
//! the oracle leaves out the remembered time and frames refused with 12". The port alone is asked about these, to count what lies behind 12.
//! The other two words of a record and 12 itself are held to what is written here, from the document alone; after a reset the Rust judges the
//! same frame.

use crate::branches::{met, met_by, met_if, Branch};
use crate::frame_call::Output;
use crate::frame_checks::{frame_refusal, parts, time};
use crate::frame_state::State;
use crate::judge;
use crate::records::{read_state, write_state, RUST_BYTES};
use crate::words::{from_bytes, in_hex};

/// A state's record: the 37 words of egui's state, then the remembered time, the low word first.
pub type StateBytes = [u8; 156];

/// A state as a host keeps it: egui's, and "the time of its last accepted frame, 0 in a fresh one".
#[derive(Clone, Copy, Debug, Default, PartialEq)]
pub struct Remembering {
    pub egui: State,
    pub time: f64,
}

/// As after a reset.
impl From<State> for Remembering {
    fn from(egui: State) -> Remembering {
        Remembering { egui, time: 0.0 }
    }
}

impl Remembering {
    /// Check 6: of the remembered time nothing is asked but that it is finite.
    pub fn refusal(&self) -> u32 {
        let refusal = self.egui.refusal();
        if refusal == 0 && !self.time.is_finite() {
            met(Branch::RememberedNotFinite);
            return 6;
        }
        refusal
    }

    /// "a frame whose time is less than the remembered one": 12. Both zeros are one time.
    pub fn is_ahead_of(&self, frame: &[u8]) -> bool {
        time(frame) < self.time
    }

    /// The first of 1 to 6 that applies, and 12 after them, or 0.
    pub fn refusal_of(&self, frame: &[u8]) -> u32 {
        let refusal = match frame_refusal(frame) {
            0 => self.refusal(),
            refusal => refusal,
        };
        if refusal != 0 {
            met_before_12(self, frame, refusal);
            return refusal;
        }
        if self.is_ahead_of(frame) {
            met(Branch::ClockBack);
            met_by(|| behind_12(self.egui, frame));
            return 12;
        }
        met_if(
            0.0 < self.time && time(frame) == self.time,
            Branch::ClockEqual,
        );
        0
    }

    /// One frame: 1 to 6, 12, and then the Rust. No refusal changes anything.
    pub fn frame(&mut self, bytes: &[u8]) -> Output {
        let refusal = self.refusal_of(bytes);
        if refusal != 0 {
            return Output::refused(refusal, self.egui);
        }
        let output = judge::frame(self.egui, bytes);
        if output.refusal == 0 {
            self.egui = output.state;
            self.remember(time(bytes));
        }
        output
    }

    /// The bits of the accepted frame's time, a -0 among them.
    fn remember(&mut self, time: f64) {
        met_if(
            time == 0.0 && time.is_sign_negative(),
            Branch::MinusZeroRemembered,
        );
        self.time = time;
    }

    /// "A reset call clears that time and nothing else."
    pub fn reset(&mut self) {
        met_if(0.0 < self.time, Branch::ResetAboveZero);
        self.time = 0.0;
    }

    /// Nothing where a flag is neither 0 nor 1.
    pub fn read(bytes: &StateBytes) -> Option<Remembering> {
        let (words, _) = bytes.split_first_chunk().expect("egui's words");
        let egui = read_state(words)?;
        let time = remembered(bytes);
        Some(Remembering { egui, time })
    }

    pub fn write(&self, bytes: &mut StateBytes) {
        let (words, time) = bytes.split_first_chunk_mut().expect("egui's words");
        write_state(&self.egui, words);
        time.copy_from_slice(&self.time.to_le_bytes());
    }

    /// The words of its record.
    pub fn record(&self) -> [u32; 39] {
        let mut bytes = [0; 156];
        self.write(&mut bytes);
        from_bytes(&bytes).try_into().expect("39 words")
    }

    /// Of the state that a frame left, and its answer: the refusal, the 39 words of the state, then the 25 words of the other outputs.
    pub fn full_line(&self, output: &Output) -> String {
        let state = in_hex(&self.record());
        let others = in_hex(&output.record());
        format!("{}{state}{others}\n", output.refusal)
    }
}

/// The time that a record remembers, whatever its flags are.
fn remembered(bytes: &StateBytes) -> f64 {
    f64::from_le_bytes(bytes[RUST_BYTES..].try_into().expect("eight bytes"))
}

/// A reset on a record: it is refused for nothing, damaged flags neither.
pub fn reset_record(bytes: &mut StateBytes) {
    met_if(0.0 < remembered(bytes), Branch::ResetAboveZero);
    bytes[RUST_BYTES..].fill(0);
}

/// Frames one after another, from a fresh state: the answer of each, and the state that it left.
pub fn run(bytes: &[u8]) -> impl Iterator<Item = (Remembering, Output)> + '_ {
    parts(bytes).scan(Remembering::default(), |kept, frame| {
        let output = kept.frame(frame);
        Some((*kept, output))
    })
}

/// The time of a frame of any length; one that ends before words 52 and 53 do has none.
pub fn time_of(frame: &[u8]) -> Option<f64> {
    (4 * 53 <= frame.len()).then(|| time(frame))
}

/// Counts a number from 1 to 6 that goes before 12 where both apply.
fn met_before_12(kept: &Remembering, frame: &[u8], refusal: u32) {
    if time_of(frame).is_some_and(|time| time < kept.time) {
        met(BEFORE_12[refusal as usize - 1]);
    }
}

const BEFORE_12: [Branch; 6] = [
    Branch::Before12By1,
    Branch::Before12By2,
    Branch::Before12By3,
    Branch::Before12By4,
    Branch::Before12By5,
    Branch::Before12By6,
];

/// What the Rust would refuse a frame with that it is not handed.
fn behind_12(egui: State, frame: &[u8]) -> Option<Branch> {
    match judge::port_frame(egui, frame).refusal {
        7 => Some(Branch::BackBefore7),
        8 => Some(Branch::BackBefore8),
        _ => None,
    }
}
