//! The shape of the records of tables and calls, and what they meet.

use oracle::answers::Answer;
use oracle::clock::Remembering;
use oracle::frame_call::frame_call;
use oracle::frame_state::State;
use oracle::frame_vectors::{bare, random_state};
use oracle::random::Random;
use oracle::table_vectors::{answers, clearing_frames, fixed_list, random_list, Record};
use oracle::tables::{refused, t_bytes};
use oracle::words::from_bytes;

/// The lists and their answers.
fn lists() -> [(Vec<Record>, Vec<Answer>); 2] {
    [fixed_list(), random_list(1, 2000)].map(|list| {
        let answers = answers(&list);
        (list, answers)
    })
}

#[test]
fn every_record_begins_with_its_kind_and_has_its_length() {
    for (list, _) in lists() {
        for record in &list {
            let bytes = record.input_record();
            assert_eq!(from_bytes(&bytes[..4])[0] as usize, record.kind());
            let length = match record {
                Record::Load(_) => 8 + from_bytes(&bytes[4..8])[0] as usize,
                Record::Exp(_) => 8,
                Record::Step(_) => 44,
                Record::Frame(_) => 420,
                Record::Reset => 4,
            };
            assert_eq!(bytes.len(), length);
            assert!(length <= 8 + 8_208);
        }
    }
}

#[test]
fn every_line_begins_with_its_kind_and_shows_the_whole_answer() {
    for (list, answers) in lists() {
        for (record, answer) in list.iter().zip(&answers) {
            let words: Vec<&str> = answer.line.trim_end().split(' ').collect();
            assert_eq!(words[0], record.name());
            let lengths: Vec<usize> = words[1..].iter().map(|word| word.len()).collect();
            match record {
                Record::Load(bytes) => {
                    assert_eq!(words[1], bytes.len().to_string());
                    assert_eq!(words[2], answer.refusal.to_string());
                }
                Record::Exp(_) => assert_eq!(lengths, [8, 8]),
                Record::Step(_) => assert_eq!(lengths[10..], [1, 1, 8, 8, 1]),
                Record::Frame(_) => {
                    assert_eq!(words[1], answer.refusal.to_string());
                    assert_eq!(lengths[1..], [8, 8, 8, 8, 2]);
                }
                Record::Reset => assert_eq!(lengths, [8, 8, 8, 8, 2]),
            }
        }
    }
}

#[test]
fn the_fixed_list_has_its_size_and_every_load() {
    let list = fixed_list();
    let count = |kind| list.iter().filter(|record| record.kind() == kind).count();
    assert_eq!([1, 2, 3, 4, 5].map(count), [59, 380, 390, 299, 46]);
    let bytes: usize = list.iter().map(|record| record.input_record().len()).sum();
    assert!(bytes < 500_000, "{bytes}");
    let loads = |wanted: &[u8]| {
        let is_wanted = |record: &Record| matches!(record, Record::Load(bytes) if bytes == wanted);
        list.iter().any(is_wanted)
    };
    assert!(loads(&t_bytes()));
    assert!(refused().iter().all(|refused| loads(&refused.bytes)));
}

#[test]
fn every_refusal_of_a_load_is_met() {
    for (list, answers) in lists() {
        for refusal in [0, 10, 11] {
            let pairs = list.iter().zip(&answers);
            let loads = pairs.filter(|(record, _)| record.kind() == 1);
            let met = loads
                .filter(|(_, answer)| answer.refusal == refusal)
                .count();
            assert!(met >= 5, "{refusal}: {met}");
        }
    }
}

#[test]
fn the_clearing_frames_lead_every_state_to_one() {
    let cleared = |state: State| {
        clearing_frames().iter().fold(state, |state, frame| {
            let output = frame_call(state, frame);
            assert_eq!(output.refusal, 0);
            output.state
        })
    };
    let expected = Remembering::from(cleared(State::default())).record();
    let random = &mut Random::new(1);
    for _ in 0..1000 {
        let state = random_state(random, &bare().bytes()).egui;
        if state.refusal() == 0 {
            assert_eq!(Remembering::from(cleared(state)).record(), expected);
        }
    }
}

/// The list ends with the same frames and resets twice: T lent, and no table.
#[test]
fn t_lent_and_no_table_give_the_same_answers() {
    let list = fixed_list();
    let answers = answers(&list);
    let loads = list.iter().enumerate().rev();
    let mut places = loads.filter(|(_, record)| record.kind() == 1);
    let [none, lent] = [places.next(), places.next()].map(|load| load.expect("a load").0);
    assert_eq!((answers[lent].refusal, answers[none].refusal), (0, 10));
    // The answers of the reset and of the clearing frames still show the state before them.
    let after = |load: usize| load + 2 + clearing_frames().len();
    let lines = |from: usize, to: usize| -> Vec<&str> {
        answers[from..to]
            .iter()
            .map(|answer| &answer.line[..])
            .collect()
    };
    let by_t = lines(after(lent), none);
    assert_eq!(by_t, lines(after(none), answers.len()));
    assert_eq!(by_t.len(), 81);
    for name in ["reset ", "frame 12 "] {
        let met = by_t.iter().filter(|line| line.starts_with(name)).count();
        assert!(met >= 8, "{name}: {met}");
    }
}

/// Whether the list is answered otherwise where no table loads.
#[test]
fn the_tables_show_in_every_kind_of_answer() {
    let list = fixed_list();
    let without: Vec<Record> = list
        .iter()
        .map(|record| match record {
            Record::Load(_) => Record::Load(Vec::new()),
            other => other.clone(),
        })
        .collect();
    let pairs: Vec<(Answer, Answer)> = answers(&list).into_iter().zip(answers(&without)).collect();
    for (kind, least) in [(2, 150), (3, 150), (4, 80), (5, 15)] {
        let records = list.iter().zip(&pairs);
        let of_kind = records.filter(|(record, _)| record.kind() == kind);
        let different = of_kind.filter(|(_, (by, t))| by.line != t.line).count();
        assert!(different >= least, "{kind}: {different}");
    }
}

#[cfg(feature = "branches")]
#[test]
fn every_branch_of_tables_is_met() {
    use oracle::branches::{count_of, BRANCHES, OF_TABLES};
    answers(&fixed_list());
    for branch in OF_TABLES {
        let met = count_of(branch);
        assert!(met >= 5, "{}: {met}", BRANCHES[branch as usize].1);
    }
}
