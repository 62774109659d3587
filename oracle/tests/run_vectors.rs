//! The shape of the stored runs, and what they meet.

mod common;

use common::assert_no_record_repeats;
use oracle::answers::Answer;
use oracle::clock::{Remembering, StateBytes};
use oracle::host_calls::{self, table_load};
use oracle::records::FLAGS;
use oracle::run_vectors::{answers, fixed_list, fixed_runs, random_list, Left, Record, Run};
use oracle::tables::{kept, unloaded, Table, LENGTH};
use oracle::words::{from_bytes, in_bytes, in_hex};

/// The lists and their answers.
fn lists() -> [(Vec<Record>, Vec<Answer>); 3] {
    [fixed_list(), random_list(1, 2000), random_list(2, 2000)].map(|list| {
        let answers = answers(&list);
        (list, answers)
    })
}

fn run_of(record: &Record) -> Option<&Run> {
    match record {
        Record::Run(run) | Record::RunBy(run) => Some(run),
        _ => None,
    }
}

/// The runs of a list and their answers.
fn runs<'a>(
    list: &'a [Record],
    answers: &'a [Answer],
) -> impl Iterator<Item = (&'a Run, &'a Answer)> {
    let pairs = list.iter().zip(answers);
    pairs.filter_map(|(record, answer)| Some((run_of(record)?, answer)))
}

/// The words behind "run" and the refusal: the frames used, and the record.
fn words_of(answer: &Answer) -> Vec<u32> {
    let words = answer.line.trim_end().split(' ').skip(2);
    let word = |digits: &str| u32::from_str_radix(digits, 16).expect("a word");
    words.map(word).collect()
}

/// The refusal of a run, and the line that shows it and both buffers.
fn shown(left: &Left) -> (u32, String) {
    let words = [from_bytes(&left.used), from_bytes(&left.state)].concat();
    let line = format!("run {}{}\n", left.refusal, in_hex(&words));
    (left.refusal, line)
}

/// The same of a fresh state, a frame, a reset or what is given on the record that is kept.
fn shown_on(kept: &mut StateBytes, record: &Record) -> (u32, String) {
    let (refusal, words) = match record {
        Record::Frame(frame) => {
            let refusal = host_calls::frame(kept, frame, &mut [0; 100]);
            (refusal, format!("frame {refusal}"))
        }
        Record::Fresh => {
            host_calls::fresh(kept);
            (0, "fresh".to_owned())
        }
        Record::Given(bytes) => {
            kept.copy_from_slice(bytes);
            (0, "given".to_owned())
        }
        _ => {
            host_calls::reset(kept);
            (0, "reset".to_owned())
        }
    };
    let line = format!("{words}{}\n", in_hex(&from_bytes(kept)));
    (refusal, line)
}

#[test]
fn every_line_shows_the_refusal_and_both_buffers() {
    for (list, answers) in lists() {
        let mut table = [0; LENGTH];
        let mut kept = [0; 156];
        for (record, answer) in list.iter().zip(&answers) {
            let (refusal, line) = match record {
                Record::Load(bytes) => {
                    let refusal = table_load(bytes, &mut table);
                    (refusal, format!("load {} {refusal}\n", bytes.len()))
                }
                Record::Run(run) => shown(&run.left(None)),
                Record::RunBy(run) => shown(&run.left(Some(taken(&table)))),
                other => shown_on(&mut kept, other),
            };
            assert_eq!((answer.refusal, &answer.line), (refusal, &line));
        }
    }
}

/// Up front neither buffer changes; else the frames used are written, and the record where there are any.
#[test]
fn a_buffer_changes_only_where_it_may() {
    for (list, answers) in lists() {
        let mut met = [0; 3];
        for (run, answer) in runs(&list, &answers) {
            let words = words_of(answer);
            let (used, given) = (words[0], from_bytes(&run.state));
            if used == from_bytes(&run.used)[0] {
                assert!(matches!(answer.refusal, 1..=6 | 9) && words[1..] == given);
                met[0] += 1;
            } else if used == 0 {
                assert!(matches!(answer.refusal, 8 | 12) && words[1..] == given);
                met[1] += 1;
            } else {
                assert!(matches!(answer.refusal, 0 | 3 | 8) && used <= run.limit());
                met[2] += 1;
            }
        }
        assert!(met.iter().all(|count| *count >= 5), "{met:?}");
    }
}

/// What a state's record would be if its absent options were zeros; nothing where a flag is damaged.
fn cleared(bytes: &StateBytes) -> Option<StateBytes> {
    let mut cleared = [0; 156];
    Remembering::read(bytes)?.write(&mut cleared);
    Some(cleared)
}

/// Words of absent options: they stay where no frame is used, and are zeros where one is.
#[test]
fn absent_options_are_met_on_both_sides() {
    for (list, answers) in lists() {
        let (mut kept, mut zeroed) = (0, 0);
        for (run, answer) in runs(&list, &answers).filter(|(_, answer)| answer.refusal != 6) {
            let is_littered = cleared(&run.state).is_some_and(|cleared| cleared != run.state);
            let words = words_of(answer);
            let after: StateBytes = in_bytes(&words[1..]).try_into().expect("39 words");
            let is_used = words[0] < 1 << 31 && words[0] > 0;
            kept += u32::from(is_littered && !is_used && after == run.state);
            zeroed += u32::from(is_littered && is_used && cleared(&after) == Some(after));
            assert!(!is_used || cleared(&after) == Some(after));
        }
        assert!(kept >= 10 && zeroed >= 10, "{kept} {zeroed}");
    }
}

/// Each flag of a record, with nothing else at fault; and behind 1 to 5, at least one of each.
#[test]
fn damaged_flags_are_6_and_come_behind_1_to_5() {
    let is_damaged = |run: &Run, flag: usize| from_bytes(&run.state)[flag] > 1;
    let list = fixed_list();
    let answers = answers(&list);
    for flag in FLAGS {
        let damaged = runs(&list, &answers).filter(|(run, _)| is_damaged(run, flag));
        let refusals: Vec<u32> = damaged.map(|(_, answer)| answer.refusal).collect();
        assert!(refusals.contains(&6), "{flag}");
        assert!(refusals.iter().all(|refusal| (1..=6).contains(refusal)));
    }
    let any = |run: &Run| FLAGS.iter().any(|flag| is_damaged(run, *flag));
    for refusal in 1..=6 {
        let mut damaged = runs(&list, &answers).filter(|(run, _)| any(run));
        assert!(damaged.any(|(_, answer)| answer.refusal == refusal));
    }
}

#[test]
fn the_fixed_list_has_its_size_and_repeats_no_run() {
    let list = fixed_list();
    let bytes: usize = list.iter().map(|record| record.input_record().len()).sum();
    assert!(bytes < 600_000, "{bytes}");
    let runs = fixed_runs().into_iter().map(Record::Run);
    assert_no_record_repeats(runs.map(|run| run.input_record()).collect());
}

#[test]
fn every_refusal_of_a_run_is_met() {
    for (list, answers) in lists() {
        for refusal in [0, 1, 2, 3, 4, 5, 6, 8, 9, 12] {
            let met = runs(&list, &answers).filter(|(_, answer)| answer.refusal == refusal);
            let met = met.count();
            assert!(met >= 5, "{refusal}: {met}");
        }
    }
}

/// Whether runs under a table are answered otherwise by T, and otherwise where nothing is loaded.
#[test]
fn the_tables_show_in_the_answers() {
    let list = fixed_list();
    let by_t = |record: &Record| match record {
        Record::RunBy(run) => Record::Run(run.clone()),
        other => other.clone(),
    };
    let without = |record: &Record| match record {
        Record::Load(_) => Record::Load(Vec::new()),
        other => other.clone(),
    };
    let other_lists: [Vec<Record>; 2] = [
        list.iter().map(by_t).collect(),
        list.iter().map(without).collect(),
    ];
    for other in other_lists {
        let pairs = answers(&list).into_iter().zip(answers(&other));
        let of_runs = list
            .iter()
            .zip(pairs)
            .filter(|(record, _)| run_of(record).is_some());
        let different = of_runs.filter(|(_, (one, other))| one.line != other.line);
        assert!(different.count() >= 20);
    }
}

/// After each of the fixed tables that do not load a run shows that the one before is still there.
#[test]
fn a_table_that_does_not_load_would_show() {
    let list = fixed_list();
    let found = answers(&list);
    let mut met = 0;
    for i in 0..list.len() {
        match &list[i] {
            Record::Load(bytes) if found[i].refusal != 0 => {
                let run = run_of(&list[i + 1]).expect("a run after it");
                let left = run.left(Some(taken(bytes)));
                assert_ne!(from_bytes(&left.state), words_of(&found[i + 1])[1..]);
                met += 1;
            }
            _ => {}
        }
    }
    assert_eq!(met, 3);
}

/// The table if the bytes were in it, cut off or with zeros behind them.
fn taken(bytes: &[u8]) -> &'static Table {
    let mut taken = bytes.to_vec();
    taken.resize(LENGTH, 0);
    kept(unloaded(&taken.try_into().expect("a table")))
}

#[cfg(feature = "branches")]
#[test]
fn every_branch_of_runs_is_met() {
    use oracle::branches::{count_of, OF_RUNS};
    answers(&fixed_list());
    for (branch, words) in OF_RUNS {
        assert!(count_of(*branch) > 0, "{words}");
    }
}
