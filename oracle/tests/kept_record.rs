//! The frames and resets that are stored on the record that a list keeps.

use std::collections::BTreeSet;

use oracle::answers::Answer;
use oracle::run_vectors::{answers, fixed_list, random_list, Record};

/// Each fresh state, frame, reset and given record of a list, with its answer and the words of the record before and after it.
fn steps(list: &[Record]) -> Vec<(Record, Answer, [Vec<u32>; 2])> {
    let mut before = vec![0; 39];
    let pairs = list.iter().cloned().zip(answers(list));
    let names = ["fresh", "frame", "reset", "given"];
    let on_kept = pairs.filter(|(record, _)| names.contains(&record.name()));
    on_kept
        .map(|(record, answer)| {
            let words = answer.line.trim_end().split(' ');
            let words = words.filter(|word| word.len() == 8);
            let after: Vec<u32> = words
                .map(|word| u32::from_str_radix(word, 16).expect("a word"))
                .collect();
            assert_eq!(after.len(), 39);
            let both = [std::mem::replace(&mut before, after.clone()), after];
            (record, answer, both)
        })
        .collect()
}

fn lists() -> [Vec<Record>; 2] {
    [fixed_list(), random_list(1, 4000)]
}

#[test]
fn a_refused_frame_changes_no_word_and_an_accepted_one_is_remembered() {
    // The random frames are too few for every number.
    let expected: [&[u32]; 2] = [&[0, 1, 2, 3, 4, 5, 6, 7, 8, 12], &[0, 12]];
    for (list, expected) in lists().iter().zip(expected) {
        let (mut met, mut is_given) = (BTreeSet::new(), false);
        for (record, answer, [before, after]) in steps(list) {
            is_given = matches!(record, Record::Given(_)) || is_given && record.name() != "fresh";
            let Record::Frame(frame) = record else {
                continue;
            };
            // No frame leaves a record on which 6 would apply.
            assert!(answer.refusal != 6 || is_given);
            met.insert(answer.refusal);
            if answer.refusal != 0 {
                assert_eq!(before, after);
            } else {
                let time = [after[37], after[38]].map(u32::to_le_bytes);
                assert_eq!(frame[204..212], time.concat());
                is_given = false;
            }
        }
        assert!(
            expected.iter().all(|refusal| met.contains(refusal)),
            "{met:?}"
        );
    }
}

#[test]
fn a_reset_clears_the_time_and_nothing_else() {
    for list in lists() {
        let mut met = BTreeSet::new();
        for (record, _, [before, after]) in steps(&list) {
            match record {
                Record::Reset => {
                    assert_eq!(
                        (&before[..37], [0, 0]),
                        (&after[..37], [after[37], after[38]])
                    );
                    met.insert([before[37] != 0, before[38] != 0]);
                }
                Record::Fresh => assert_eq!(after[37..], [0, 0]),
                _ => {}
            }
        }
        assert!(met.contains(&[false, false]) && met.contains(&[true, true]));
    }
}

/// A reset of the zeros that are there at first, and of a remembered -0.
#[test]
fn resets_of_both_zeros_are_stored() {
    let steps = steps(&fixed_list());
    let of_resets = steps.iter().filter(|step| step.0.name() == "reset");
    let zeros: Vec<u32> = of_resets
        .filter(|(_, _, [before, _])| before[37] == 0)
        .map(|(_, _, [before, _])| before[38])
        .collect();
    assert!(zeros.contains(&0) && zeros.contains(&0x8000_0000));
    let first = &steps[0];
    assert_eq!(
        (first.0.name(), &first.2),
        ("reset", &[vec![0; 39], vec![0; 39]])
    );
}
