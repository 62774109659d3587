//! The answers of a list, each under the table that serves by then.

use super::Record;
use crate::answers::Answer;
use crate::axis_vectors::Call;
use crate::clock::Remembering;
use crate::numbers::Stated as _;
use crate::tables::{kept, load, under, Table};
use crate::words::{in_hex, shown};

/// What a list has led to: the table that serves, none for T, and the state.
struct Run {
    table: Option<&'static Table>,
    state: Remembering,
}

/// The answers, from a fresh state and with T serving.
pub fn answers(list: &[Record]) -> Vec<Answer> {
    let mut run = Run {
        table: None,
        state: Remembering::default(),
    };
    list.iter().map(|record| run.answer(record)).collect()
}

impl Run {
    fn answer(&mut self, record: &Record) -> Answer {
        match record {
            Record::Load(bytes) => self.load(bytes),
            Record::Exp(bits) => self.exp(*bits),
            Record::Step(call) => self.step(call),
            Record::Frame(bytes) => self.frame(bytes),
            Record::Reset => self.reset(),
        }
    }

    fn load(&mut self, bytes: &[u8]) -> Answer {
        let loaded = load(bytes);
        let refusal = *loaded.as_ref().err().unwrap_or(&0);
        self.table = loaded.ok().map(kept);
        Answer::of_load(bytes, refusal)
    }

    fn exp(&self, bits: u32) -> Answer {
        let found = under(self.table, || f32::from_bits(bits).stated_exp());
        let line = format!("exp{}\n", in_hex(&[bits, shown(found)]));
        Answer { refusal: 0, line }
    }

    fn step(&self, call: &Call) -> Answer {
        let (refusal, line) = under(self.table, || (call.refusal(), call.output_line()));
        Answer { refusal, line }
    }

    fn frame(&mut self, bytes: &[u8]) -> Answer {
        let output = under(self.table, || self.state.frame(bytes));
        let (refusal, listed) = (output.refusal, output.listing_line());
        let line = format!("frame {listed}");
        Answer { refusal, line }
    }

    /// By value; the line shows the state after it.
    fn reset(&mut self) -> Answer {
        self.state.reset();
        let line = format!("reset{}\n", self.state.egui.listed());
        Answer { refusal: 0, line }
    }
}
