//! Document 02's K6 inside frames, as they are stored: who takes the turn of each, and what it leaves.

use oracle::branches::Branch::{self, TurnCan, TurnCorner, TurnNoParent};
use oracle::branches::Branch::{TurnNobody, TurnOverscroll, TurnZero};
use oracle::branches::OF_TURNS;
use oracle::clock::{run, Remembering};
use oracle::frame_call::Output;
use oracle::run_vectors::{fixed_list, on_given_records, turns, Record};
use oracle::words::from_bytes;

/// By the frame's number who takes its turn; then offset, velocity, bounce flag, and whether a scroll target is under way.
const TURNS: [(usize, Branch, f32, f32, bool, bool); 20] = [
    (1, TurnZero, 0.0, 0.0, false, false),
    (2, TurnCan, 300.0, 0.0, false, false),
    (3, TurnNobody, 300.0, 0.0, false, false),
    (4, TurnNoParent, 306.0, 0.0, false, false),
    (5, TurnOverscroll, 310.0344, 0.0, false, false),
    (6, TurnZero, 310.0344, 0.0, false, false),
    (7, TurnCan, 290.0344, 0.0, false, false),
    (8, TurnCan, 299.5344, 0.0, false, false),
    (9, TurnCan, 300.0, 10.0, true, false),
    (10, TurnOverscroll, 300.86078, 7.3514147, true, false),
    (11, TurnCorner, 300.0, 0.0, true, false),
    (12, TurnCan, 300.0, 0.0, true, false),
    (13, TurnNobody, 300.0, 0.0, false, true),
    (14, TurnNobody, 300.0, 0.0, false, true),
    (15, TurnNoParent, 300.0, 0.0, true, false),
    (16, TurnNoParent, 300.0, 0.0, true, false),
    (17, TurnCorner, 300.0, 0.0, true, false),
    (18, TurnZero, 300.0, 0.0, true, true),
    (19, TurnZero, 300.0, 0.0, false, true),
    (20, TurnCan, 292.0, 0.0, false, false),
];

fn is_taken(ground: Branch) -> bool {
    ![TurnZero, TurnNobody].contains(&ground)
}

/// The stored frames, which follow a fresh state.
fn frames() -> Vec<Vec<u8>> {
    let list = turns();
    assert!(matches!(list[0], Record::Fresh));
    let frame = |record: &Record| match record {
        Record::Frame(bytes) => bytes.clone(),
        other => panic!("{} for a frame", other.name()),
    };
    list[1..].iter().map(frame).collect()
}

/// The words of each frame, the state that it left, and its answer.
fn played() -> Vec<(Vec<u32>, Remembering, Output)> {
    let frames = frames();
    assert_eq!(frames.len(), TURNS.len());
    let bytes = frames.concat();
    let words = frames.iter().map(|frame| from_bytes(frame));
    let played = words.zip(run(&bytes));
    played
        .map(|(words, (left, output))| (words, left, output))
        .collect()
}

#[test]
fn they_stand_ahead_of_the_given_records() {
    let stored = |list: Vec<Record>| -> Vec<Vec<u8>> {
        list.iter().map(|record| record.input_record()).collect()
    };
    let end = [turns(), on_given_records()].concat();
    assert!(stored(fixed_list()).ends_with(&stored(end)));
}

#[test]
fn every_frame_is_accepted_and_leaves_what_is_listed() {
    for ((number, _, offset, velocity, bounced, has_target), (_, left, output)) in
        TURNS.into_iter().zip(played())
    {
        let state = left.egui;
        let numbers = [state.offset[1], state.vel[1]].map(f32::to_bits);
        assert_eq!(output.refusal, 0, "{number}");
        assert_eq!(numbers, [offset, velocity].map(f32::to_bits), "{number}");
        let flags = (
            state.bounced_this_momentum[1],
            state.offset_target[1].is_some(),
        );
        assert_eq!(flags, (bounced, has_target), "{number}");
    }
}

/// Nothing of a turn that is taken is left for a parent, and a turn that is left is left whole.
#[test]
fn the_delta_that_is_left_says_who_took_the_turn() {
    for ((number, ground, ..), (words, _, output)) in TURNS.into_iter().zip(played()) {
        // Words 64 and 65, numbered from 1.
        let given = [words[63], words[64]];
        let left = output.wheel_delta_left.map(f32::to_bits);
        let expected = if is_taken(ground) { [0, 0] } else { given };
        assert_eq!(left, expected, "{number}");
    }
}

/// Frames of every ground ask for a place: the target is under way after those whose turn is left, and given up by the others.
#[test]
fn the_record_says_who_took_the_turn() {
    let mut met = Vec::new();
    for ((number, ground, .., has_target), (words, ..)) in TURNS.into_iter().zip(played()) {
        // Words 26 and 87, numbered from 1.
        let asks = words[25] == 1 && words[86] != 0;
        if asks {
            assert_eq!(has_target, !is_taken(ground), "{number}");
            met.push(ground);
        }
    }
    for (ground, words) in OF_TURNS {
        assert!(met.contains(ground), "{words}");
    }
}

/// The 14th and the 17th: all that tells them apart is the flag in the record.
#[test]
fn one_frame_is_left_before_a_bounce_and_taken_after_it() {
    let frames = frames();
    assert_eq!(frames[13], frames[16]);
    assert_eq!([TURNS[13].1, TURNS[16].1], [TurnNobody, TurnCorner]);
}

#[cfg(feature = "branches")]
#[test]
fn every_frame_counts_its_ground_and_no_other() {
    use oracle::branches::count_of;
    let counts = || -> Vec<(Branch, u64)> {
        let grounds = OF_TURNS.iter().map(|named| named.0);
        grounds.map(|ground| (ground, count_of(ground))).collect()
    };
    let bytes = frames().concat();
    let mut answers = run(&bytes);
    for (number, ground, ..) in TURNS {
        let once = |(other, count)| (other, count + u64::from(other == ground));
        let expected: Vec<(Branch, u64)> = counts().into_iter().map(once).collect();
        assert!(answers.next().is_some());
        assert_eq!(counts(), expected, "{number}");
    }
    assert!(answers.next().is_none());
    assert!(counts().iter().all(|(_, count)| *count > 0));
}
