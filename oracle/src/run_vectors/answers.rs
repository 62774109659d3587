//! The answers of a list, each under the table and on the record that those before it left.

use super::{Record, Run};
use crate::answers::Answer;
use crate::clock::StateBytes;
use crate::host_calls::{frame, fresh, reset, table_load};
use crate::tables::{kept, unloaded, Table, TableBytes, LENGTH};
use crate::words::{from_bytes, in_hex};

/// The bytes of the table, and what they stand for.
struct Lent {
    bytes: TableBytes,
    entries: &'static Table,
}

impl Lent {
    fn of(bytes: TableBytes) -> Lent {
        let entries = kept(unloaded(&bytes));
        Lent { bytes, entries }
    }

    fn load(&mut self, bytes: &[u8]) -> Answer {
        let refusal = table_load(bytes, &mut self.bytes);
        *self = Lent::of(self.bytes);
        Answer::of_load(bytes, refusal)
    }
}

/// The answers, with zeros in the table and in the record at first.
pub fn answers(list: &[Record]) -> Vec<Answer> {
    let mut table = Lent::of([0; LENGTH]);
    let mut kept = [0; 156];
    let answer = |record: &Record| match record {
        Record::Load(bytes) => table.load(bytes),
        Record::Run(run) => answer(run, None),
        Record::RunBy(run) => answer(run, Some(table.entries)),
        Record::Fresh => {
            fresh(&mut kept);
            shown("fresh", &kept)
        }
        Record::Frame(bytes) => answer_frame(&mut kept, bytes),
        Record::Reset => {
            reset(&mut kept);
            shown("reset", &kept)
        }
        Record::Given(bytes) => {
            kept = *bytes;
            shown("given", &kept)
        }
    };
    list.iter().map(answer).collect()
}

/// The 39 words of the record that is kept, after a call that nothing is refused by.
fn shown(name: &str, kept: &StateBytes) -> Answer {
    let words = in_hex(&from_bytes(kept));
    Answer {
        refusal: 0,
        line: format!("{name}{words}\n"),
    }
}

/// The refusal and the 39 words of the record that is kept; what else the frame puts out is not shown.
fn answer_frame(kept: &mut StateBytes, bytes: &[u8]) -> Answer {
    let refusal = frame(kept, bytes, &mut [0; 100]);
    let words = in_hex(&from_bytes(kept));
    let line = format!("frame {refusal}{words}\n");
    Answer { refusal, line }
}

/// The refusal, the word of the frames used, and the 39 words of the record.
fn answer(run: &Run, table: Option<&'static Table>) -> Answer {
    let left = run.left(table);
    let refusal = left.refusal;
    let words = [from_bytes(&left.used), from_bytes(&left.state)].concat();
    let line = format!("run {refusal}{}\n", in_hex(&words));
    Answer { refusal, line }
}
