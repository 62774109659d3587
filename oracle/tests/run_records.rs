//! The records that ask: of runs, loads, and frames and resets on a record that is kept.

use oracle::run_vectors::{fixed_list, random_list, Record, Run};
use oracle::words::from_bytes;

#[test]
fn every_record_begins_with_its_kind_and_has_its_length() {
    for list in [fixed_list(), random_list(1, 2000), random_list(2, 2000)] {
        for record in &list {
            let bytes = record.input_record();
            let kind = from_bytes(&bytes[..4])[0];
            match record {
                Record::Load(table) => {
                    assert_eq!((kind, from_bytes(&bytes[4..8])[0]), (1, table.len() as u32));
                    assert_eq!(&bytes[8..], table);
                    assert!(table.len() <= 8_208);
                }
                Record::Run(run) => assert_eq!((kind, holds(run, &bytes)), (2, true)),
                Record::RunBy(run) => assert_eq!((kind, holds(run, &bytes)), (3, true)),
                Record::Fresh => assert_eq!((kind, bytes.len()), (4, 4)),
                Record::Frame(frame) => {
                    let stored = (kind, bytes.len(), holds_frame(frame, &bytes));
                    assert_eq!(stored, (5, 432, true));
                }
                Record::Reset => assert_eq!((kind, bytes.len()), (6, 4)),
                Record::Given(given) => assert_eq!((kind, &bytes[4..]), (7, &given[..])),
            }
        }
    }
}

/// Whether the record holds the frame behind its kind: the length, the bytes, and zeros up to 424.
fn holds_frame(frame: &[u8], bytes: &[u8]) -> bool {
    let length = frame.len();
    from_bytes(&bytes[4..8])[0] as usize == length
        && bytes[8..8 + length] == *frame
        && bytes[8 + length..432].iter().all(|byte| *byte == 0)
}

/// Whether the record holds the run, each part at its place.
fn holds(run: &Run, bytes: &[u8]) -> bool {
    bytes.len() == 604
        && holds_frame(&run.frame, bytes)
        && bytes[432..588] == run.state
        && bytes[588..600] == run.run
        && bytes[600..] == run.used
}
