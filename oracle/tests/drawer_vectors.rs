//! The shape of the records of drawers, and what they meet.

use oracle::answers::Answer;
use oracle::drawer_vectors::{answers, fixed_list, honest_list, mark, random_list, written_list};
use oracle::drawer_vectors::{Call, STORED, UNWRITTEN};
use oracle::words::from_bytes;

/// A list, made in a thread of its own: the branches that it meets while it is made do not count.
#[cfg(feature = "branches")]
fn made(list: impl FnOnce() -> Vec<Call> + Send + 'static) -> Vec<Call> {
    std::thread::spawn(list).join().expect("the list is made")
}

/// The lists and their answers.
fn lists() -> [(Vec<Call>, Vec<Answer>); 4] {
    let lists = [
        fixed_list(),
        random_list(1, 3_000),
        honest_list(2, 3_000),
        written_list(3, 3_000),
    ];
    lists.map(|list| {
        let answers = answers(&list);
        (list, answers)
    })
}

#[test]
fn every_record_begins_with_its_kind_and_has_its_length() {
    for (list, _) in lists() {
        let mut length = 0;
        for call in &list {
            let bytes = call.input_record();
            let kind = from_bytes(&bytes[..4])[0];
            match call {
                Call::Given(given) => {
                    length = given.len();
                    assert_eq!((kind, from_bytes(&bytes[4..8])[0]), (1, length as u32));
                    assert_eq!(bytes[8..], given[..]);
                    assert!(length <= STORED);
                }
                Call::Put(place, word) => {
                    assert_eq!((kind, from_bytes(&bytes[4..8])[0]), (2, *place as u32));
                    assert_eq!(bytes[8..], word[..]);
                    assert!(place + 4 <= length);
                }
                Call::Lay => assert_eq!((kind, bytes.len()), (3, 4)),
                Call::Save(id, state) => {
                    assert_eq!((kind, &bytes[4..12]), (4, &id.to_le_bytes()[..]));
                    assert_eq!(bytes[12..], state[..]);
                }
                Call::Load(id) => assert_eq!((kind, &bytes[4..]), (5, &id.to_le_bytes()[..])),
                Call::Forget(id) => assert_eq!((kind, &bytes[4..]), (6, &id.to_le_bytes()[..])),
            }
        }
    }
}

#[test]
fn every_line_has_its_name_its_answer_and_its_marks() {
    for (list, answers) in lists() {
        for (call, answer) in list.iter().zip(&answers) {
            let words: Vec<&str> = answer.line.trim_end().split(' ').collect();
            assert_eq!(words[0], call.name());
            assert_eq!(words[1], answer.refusal.to_string());
            let marks = words[2..].iter().map(|word| word.len());
            let expected = 1 + usize::from(matches!(call, Call::Load(_)));
            assert_eq!(marks.collect::<Vec<usize>>(), vec![8; expected]);
        }
    }
}

#[test]
fn marks_are_as_agreed() {
    assert_eq!(mark(&[]), 0x811c_9dc5);
    assert_eq!(mark(&UNWRITTEN), 0x8060_07a5);
}

#[test]
fn the_fixed_list_has_its_size() {
    let list = fixed_list();
    let bytes: usize = list.iter().map(|call| call.input_record().len()).sum();
    assert!((3_000..=4_500).contains(&list.len()), "{}", list.len());
    assert!(bytes < 300_000, "{bytes}");
}

#[test]
fn every_answer_of_every_call_is_met() {
    let met = [
        ("lay", &[0, 13][..]),
        ("save", &[0, 6, 13, 15]),
        ("load", &[0, 13, 14]),
        ("forget", &[0, 13, 14]),
    ];
    for (list, answers) in [&lists()[0], &lists()[1]] {
        for (name, refusals) in met {
            for refusal in refusals {
                let pairs = list.iter().zip(answers);
                let is_so =
                    |pair: &(&Call, &Answer)| pair.0.name() == name && pair.1.refusal == *refusal;
                assert!(pairs.filter(is_so).count() > 0, "{name} {refusal}");
            }
        }
    }
}

/// But a buffer of more than 65,536 records, which is too large to be stored.
#[cfg(feature = "branches")]
fn assert_every_branch_is_met(list: Vec<Call>, least: u64) {
    use oracle::branches::{count_of, Branch, OF_DRAWERS};
    answers(&list);
    for (branch, words) in OF_DRAWERS {
        let met = count_of(*branch);
        println!("{met} {words}");
        let is_too_large = *branch == Branch::DrawerTooLarge;
        assert!(is_too_large || met >= least, "{words}: {met}");
    }
}

#[cfg(feature = "branches")]
#[test]
fn the_stored_calls_meet_every_branch() {
    assert_every_branch_is_met(made(fixed_list), 1);
}

#[cfg(feature = "branches")]
#[test]
fn random_calls_meet_every_branch() {
    assert_every_branch_is_met(made(|| random_list(5, 20_000)), 5);
}
