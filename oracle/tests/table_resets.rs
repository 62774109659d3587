//! The resets among the calls under tables: what their lines show, and the frames that they let through.

use std::collections::BTreeSet;

use oracle::answers::Answer;
use oracle::clock::time_of;
use oracle::table_vectors::{answers, fixed_list, random_list, Record};

/// The lists and their answers.
fn lists() -> [(Vec<Record>, Vec<Answer>); 2] {
    [fixed_list(), random_list(1, 4000)].map(|list| {
        let answers = answers(&list);
        (list, answers)
    })
}

/// What a line shows of the state, behind the name and a frame's refusal.
fn state_of(answer: &Answer) -> &str {
    let words = answer.line.trim_end().splitn(3, ' ');
    match words.collect::<Vec<_>>()[..] {
        ["reset", _, _] => &answer.line["reset ".len()..],
        ["frame", _, state] => &answer.line[answer.line.len() - state.len() - 1..],
        _ => panic!("{}", answer.line),
    }
}

/// The frames and resets of a list and their answers; other calls between them leave the state alone.
fn played<'a>(list: &'a [Record], answers: &'a [Answer]) -> Vec<(&'a Record, &'a Answer)> {
    let pairs = list.iter().zip(answers);
    let of_state = |record: &Record| matches!(record, Record::Frame(_) | Record::Reset);
    pairs.filter(|(record, _)| of_state(record)).collect()
}

fn frame_of(record: &Record) -> Option<&[u8]> {
    match record {
        Record::Frame(bytes) => Some(bytes),
        _ => None,
    }
}

#[test]
fn a_reset_and_a_refused_frame_show_the_state_before_them() {
    for (list, answers) in lists() {
        let mut met = [0; 2];
        for pair in played(&list, &answers).windows(2) {
            let [(_, before), (record, after)] = pair else {
                panic!("two of them");
            };
            let is_reset = matches!(record, Record::Reset);
            if is_reset || after.refusal != 0 {
                assert_eq!(state_of(before), state_of(after));
                met[usize::from(is_reset)] += 1;
            }
        }
        assert!(met.iter().all(|count| *count >= 30), "{met:?}");
    }
}

/// A frame refused with 12, the reset, and the same frame: by its place among the frames whether it was by value or lent.
fn sent_again(list: &[Record], answers: &[Answer]) -> Vec<(usize, u32)> {
    let played = played(list, answers);
    let mut found = Vec::new();
    for i in 2..played.len() {
        let [(refused, first), (reset, _), (again, second)] = [0, 1, 2].map(|j| played[i - 2 + j]);
        let is_same = frame_of(refused).is_some() && frame_of(refused) == frame_of(again);
        if first.refusal == 12 && is_same && matches!(reset, Record::Reset) {
            let frames = played[..i]
                .iter()
                .filter_map(|(record, _)| frame_of(record));
            found.push((frames.count() % 2, second.refusal));
        }
    }
    found
}

#[test]
fn a_reset_lets_the_same_frame_through_by_value_and_lent() {
    for (list, answers) in lists() {
        let again = sent_again(&list, &answers);
        assert!(again.iter().all(|(_, refusal)| *refusal != 12));
        for way in 0..2 {
            let met = again.iter().filter(|found| **found == (way, 0)).count();
            assert!(met >= 10, "{way}: {met}");
        }
    }
}

/// Whether these are a fall: a frame, an earlier one that a reset lets through, and another reset.
fn is_fall(records: &[Record], answers: &[Answer]) -> bool {
    let [Record::Frame(before), Record::Frame(frame), Record::Reset, Record::Frame(again), Record::Reset] =
        records
    else {
        return false;
    };
    let refusals = [0, 1, 3].map(|i| answers[i].refusal);
    frame == again && time_of(frame) < time_of(before) && refusals == [0, 12, 0]
}

/// By T at first and under each of the tables that load first; the frame that goes through shows the table.
#[test]
fn times_fall_under_every_table() {
    let list = fixed_list();
    let answers = answers(&list);
    let (mut tables, mut shown) = (BTreeSet::new(), BTreeSet::new());
    for place in 0..list.len() - 4 {
        let found = &answers[place..place + 5];
        if is_fall(&list[place..place + 5], found) {
            let is_load = |record: &Record| record.name() == "load";
            let load = list[..place].iter().rposition(is_load);
            assert!(load.is_none_or(|load| answers[load].refusal == 0));
            assert_ne!(state_of(&found[1]), state_of(&found[3]));
            tables.insert(load);
            shown.insert(state_of(&found[3]));
        }
    }
    // T and the tables of each kind; some are alike where the frame looks.
    assert_eq!(tables.len(), 13);
    assert!(shown.len() >= 8, "{}", shown.len());
}
