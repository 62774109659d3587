//! The settling run on records.

use oracle::frame_vectors::{bare, example};
use oracle::host_calls::{fresh, settle};
use oracle::numbers::TABLE;
use oracle::records::FLAGS;
use oracle::run_vectors::lists::{list, moving, paced};
use oracle::run_vectors::{fixed_calls, scene_calls, Call, Run, UNWRITTEN};
use oracle::settling_run::refusal_up_front;
use oracle::words::in_bytes;

/// The call on a record; absent options hold words that are not zeros.
fn on_record(call: &Call) -> Run {
    Run::of(call).with_absent(|| 0xbbbb_bbbb)
}

fn calls() -> Vec<Call> {
    let mut calls = fixed_calls();
    calls.extend(scene_calls(3, 3000));
    calls
}

/// The answer by value, and what it says of both buffers.
#[test]
fn both_buffers_hold_what_the_frames_used_led_to() {
    for call in calls() {
        let given = on_record(&call);
        let left = given.left(None);
        let expected = call.answer();
        assert_eq!(left.refusal, expected.refusal);
        let (by_value, run) = (Some(&call.state), (call.increment, call.limit));
        let up_front = refusal_up_front(by_value, &call.frame, run.0, run.1);
        if up_front != 0 {
            assert_eq!((left.state, left.used), (given.state, UNWRITTEN));
        } else {
            assert_eq!(left.used, expected.used.to_le_bytes());
        }
        if expected.used == 0 {
            assert_eq!(left.state, given.state);
        } else {
            assert_eq!(left.state[..], in_bytes(&expected.state.record())[..]);
        }
    }
}

/// Behind 1 to 5 and ahead of 9; neither buffer changes.
#[test]
fn a_damaged_flag_is_6_in_its_place() {
    for flag in FLAGS {
        let mut state = [0; 156];
        fresh(&mut state);
        state[4 * flag + 3] = 1;
        let (given, mut used) = (state, UNWRITTEN);
        let mut number = |frame: &[u8], limit: u8| {
            let run = [0, 0, 0, 0, 0, 0, 0, 0, limit, 0, 0, 0];
            settle(&mut state, frame, &run, &mut used)
        };
        assert_eq!(number(&example().bytes(), 1), 6);
        assert_eq!(number(&example().bytes(), 0), 6);
        assert_eq!(number(&example().bytes()[1..], 0), 1);
        assert_eq!(number(&bare().with(37, 0).bytes(), 0), 5);
        assert_eq!((state, used), (given, UNWRITTEN));
    }
}

/// The increment's low word, its high word, the limit.
#[test]
fn a_run_is_read_word_by_word() {
    let increment = f64::from_bits(0x3fe0_0000_0000_0001);
    let mut call = paced(moving(150.0, 90.0), list(), 1);
    (call.increment, call.limit) = (increment, 0x0102_0304);
    let Run {
        mut state,
        run,
        mut used,
        ..
    } = on_record(&call);
    assert_eq!(run, [1, 0, 0, 0, 0, 0, 0xe0, 0x3f, 4, 3, 2, 1]);
    let mut number = |run: &[u8; 12]| settle(&mut state, &example().bytes(), run, &mut used);
    assert_eq!(number(&[0, 0, 0, 0, 0, 0, 0xf0, 0x3f, 1, 0, 0, 0]), 0);
    assert_eq!(number(&[1, 0, 0, 0, 0, 0, 0xf0, 0x3f, 1, 0, 0, 0]), 9);
    assert_eq!(number(&[0, 0, 0xf0, 0x3f, 0, 0, 0, 0, 0, 0x10, 0, 0]), 0);
    assert_eq!(number(&[0, 0, 0xf0, 0x3f, 0, 0, 0, 0, 0, 0, 1, 0]), 9);
}

#[test]
fn a_run_by_t_is_the_run_without_a_table() {
    for call in calls() {
        let run = on_record(&call);
        assert_eq!(run.left(Some(&TABLE)), run.left(None));
    }
}
