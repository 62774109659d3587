//! The settling run: what it refuses before any frame, which frames it takes, and how it ends.

use oracle::clock::Remembering;
use oracle::frame_state::State;
use oracle::frame_vectors::Frame;
use oracle::run_vectors::lists::{list, moving, SCREEN};
use oracle::run_vectors::{arbitrary_calls, fixed_calls, scene_calls, Call};
use oracle::settling_run::{self, refusal_up_front, Settled};
use oracle::tables::{good, kept, under};

fn settle(state: State, bytes: &[u8], increment: f64, limit: u32) -> Settled {
    settling_run::settle(state.into(), bytes, increment, limit)
}

fn refusal(frame: Frame, increment: f64, limit: u32) -> u32 {
    settle(moving(150.0, 90.0), &frame.bytes(), increment, limit).refusal
}

/// Runs of every origin.
fn calls() -> Vec<Call> {
    let mut calls = fixed_calls();
    for seed in 1..=2 {
        calls.extend(scene_calls(seed, 3000));
        calls.extend(arbitrary_calls(seed, 3000));
    }
    calls
}

fn is_refused_up_front(call: &Call) -> bool {
    refusal_up_front(Some(&call.state), &call.frame, call.increment, call.limit) != 0
}

#[test]
fn the_lowest_number_up_front_is_answered() {
    // A slip of each number from 2 to 5, put in from the last on.
    let slips = [
        (5, 88, 0),
        (4, 71, 0x4000_0000),
        (3, 40, 0x7fc0_0000),
        (2, 1, 2),
    ];
    let mut frame = list().with(61, 1);
    let mut broken = moving(150.0, 90.0);
    assert_eq!(settle(broken, &frame.bytes(), 2.0, 0).refusal, 9);
    broken.vel[0] = f32::NAN;
    assert_eq!(settle(broken, &frame.bytes(), 2.0, 0).refusal, 6);
    for (number, word, bits) in slips {
        frame = frame.with(word, bits);
        assert_eq!(settle(broken, &frame.bytes(), 2.0, 0).refusal, number);
    }
    assert_eq!(settle(broken, &frame.bytes()[1..], 2.0, 0).refusal, 1);
}

#[test]
fn a_limit_is_from_1_to_10_000() {
    for (limit, number) in [(0, 9), (1, 0), (10_000, 0), (10_001, 9), (u32::MAX, 9)] {
        assert_eq!(refusal(list(), SCREEN, limit), number, "{limit}");
    }
}

#[test]
fn an_increment_is_from_0_to_1() {
    let beside = [0x3ff0_0000_0000_0001, 0x8000_0000_0000_0001].map(f64::from_bits);
    let [above, below] = beside;
    for increment in [
        above,
        below,
        -1.0,
        2.0,
        f64::NAN,
        f64::INFINITY,
        -f64::INFINITY,
    ] {
        assert_eq!(refusal(list(), increment, 60), 9, "{increment}");
    }
    for increment in [0.0, -0.0, f64::from_bits(1), 1.0] {
        assert_eq!(refusal(list(), increment, 60), 0, "{increment}");
    }
}

/// Each of the 104 words by itself, with what a flag, a kind or a number may be.
#[test]
fn only_twelve_words_move_an_axis() {
    let flags = [15, 17, 61, 62, 74, 79, 91, 98];
    let deltas = [64, 65, 86, 87];
    let frame = [95, 102].iter().fold(list(), |frame, speed| {
        frame.with_numbers(*speed, &[1.0, 0.0, 1.0])
    });
    for word in 1..=104 {
        let mut met = Vec::new();
        for bits in [0, 1, 0x8000_0000, 1.0f32.to_bits()] {
            let number = refusal(frame.with(word, bits), SCREEN, 1);
            // What may not stand there at all is refused before 9.
            if number == 0 || number == 9 {
                met.push((bits, number));
            }
        }
        let moves = flags.contains(&word) || deltas.contains(&word);
        let expected = |bits: u32| if moves && bits << 1 != 0 { 9 } else { 0 };
        assert!(
            met.iter().all(|(bits, number)| expected(*bits) == *number),
            "{word}: {met:?}"
        );
        assert!(
            !moves || met.iter().any(|(_, number)| *number == 9),
            "{word}: {met:?}"
        );
    }
}

/// By the frame call alone, each frame at its own time: which frames were taken, and what ended it.
#[test]
fn a_run_is_its_frames_one_after_another() {
    for call in calls().iter().filter(|call| !is_refused_up_front(call)) {
        let answer = call.answer();
        let (mut state, mut wants_repaint) = (call.state, true);
        let mut time = f64::from_le_bytes(call.frame[204..212].try_into().expect("eight bytes"));
        let mut frame = call.frame.clone();
        for _ in 0..answer.used {
            assert!(wants_repaint);
            frame[204..212].copy_from_slice(&time.to_bits().to_le_bytes());
            let output = state.frame(&frame);
            assert_eq!(output.refusal, 0);
            wants_repaint = output.repaint;
            time += call.increment;
        }
        assert_eq!(answer.state.record(), state.record());
        frame[204..212].copy_from_slice(&time.to_bits().to_le_bytes());
        match answer.refusal {
            0 => assert!(!wants_repaint || answer.used == call.limit),
            refusal => {
                assert!(wants_repaint && answer.used < call.limit);
                assert_eq!(state.frame(&frame).refusal, refusal);
            }
        }
    }
}

#[test]
fn what_is_refused_up_front_has_used_nothing() {
    for call in calls().iter().filter(|call| is_refused_up_front(call)) {
        let Settled {
            refusal,
            used,
            state,
        } = call.answer();
        assert!(matches!(refusal, 1..=6 | 9) && used == 0);
        assert_eq!(state.record(), call.state.record());
    }
}

#[test]
fn inside_only_3_and_8_are_met_and_12_at_the_first_frame() {
    for call in calls().iter().filter(|call| !is_refused_up_front(call)) {
        let Settled { refusal, used, .. } = call.answer();
        match refusal {
            3 => assert!(used > 0),
            12 => assert_eq!(used, 0),
            _ => assert!([0, 8].contains(&refusal)),
        }
    }
}

#[test]
fn the_frame_that_rests_is_used() {
    let ended = |state, frame: Frame| {
        let answer = settle(state, &frame.bytes(), SCREEN, 60);
        (answer.refusal, answer.used)
    };
    assert_eq!(ended(moving(150.0, 0.0), list()), (0, 1));
    // The bar opens in the first frame, which asks for another.
    assert_eq!(ended(State::default(), list().with(9, 1)), (0, 2));
}

/// A fling of 90 points a second is too slow once less than 0.1 is left of its way: 90 · 0.325 · exp(-t / 0.325) < 0.1.
#[test]
fn a_fling_takes_as_long_as_it_decays() {
    let answer = settle(moving(150.0, 90.0), &list().bytes(), SCREEN, 10_000);
    let seconds = 0.325 * (90.0f64 * 0.325 / 0.1).ln();
    let frames = (seconds * 60.0).ceil() as u32 + 1;
    assert_eq!(
        (answer.refusal, answer.used, answer.state.egui.vel[1]),
        (0, frames, 0.0)
    );
    assert!((answer.state.egui.offset[1] - (150.0 + 90.0 * 0.325)).abs() < 0.2);
}

/// From 7 steps of 2^-21 before 2^32: a sum is rounded to a step, and at 2^32 itself to two, each time anew.
#[test]
fn each_sum_of_times_is_rounded() {
    let step = 1.0f64 / 2_097_152.0;
    let start = 4_294_967_296.0 - 7.0 * step;
    let frame = list().with_number(38, 0.0).with_time(start.to_bits());
    let expected = [
        (0.25, (0, 300)),
        (0.75, (0, 300)),
        (1.0, (0, 300)),
        (1.25, (3, 8)),
        (1.75, (3, 5)),
        (2.0, (3, 5)),
        (3.0, (3, 3)),
    ];
    for (share, ended) in expected {
        let answer = settle(moving(150.0, 90.0), &frame.bytes(), share * step, 300);
        assert_eq!((answer.refusal, answer.used), ended, "{share}");
    }
}

#[test]
fn what_never_rests_ends_at_its_limit() {
    let no_stop = list().with_number(38, 0.0);
    let no_time = list().with_number(51, 0.0);
    for frame in [no_stop, no_time] {
        for limit in [1, 2, 9_999, 10_000] {
            let answer = settle(moving(150.0, 90.0), &frame.bytes(), 0.0, limit);
            assert_eq!((answer.refusal, answer.used), (0, limit));
        }
    }
}

#[test]
fn a_refusal_inside_leaves_the_frames_before_it() {
    let band = list().with(39, 1).with_number(51, 0.1).with_number(37, 1.0);
    let first = settle(moving(3e38, 3e38), &band.bytes(), SCREEN, 60);
    assert_eq!((first.refusal, first.used), (8, 0));
    assert_eq!(first.state, moving(3e38, 3e38).into());
    let later = settle(moving(150.0, 3.4e38), &band.bytes(), SCREEN, 60);
    assert_eq!((later.refusal, later.used), (8, 1));
    let mut expected = Remembering::from(moving(150.0, 3.4e38));
    expected.frame(&band.bytes());
    assert_eq!(later.state, expected);
}

/// A table that falls to 0 stops a fling in its second frame; one that hardly falls lets it run.
#[test]
fn a_run_reads_the_table_that_serves() {
    let run = || settle(moving(150.0, 90.0), &list().bytes(), SCREEN, 10_000);
    let by_t = run().used;
    let mut met = 0;
    for table in good(1) {
        let found = under(kept(table.table), run).used;
        match table.name {
            "T" => assert_eq!(found, by_t),
            "zero after the first" | "half" => assert!(found < 10, "{found}"),
            "slower than T" | "constant" => assert!(found > 2 * by_t, "{found}"),
            _ => continue,
        }
        met += 1;
    }
    assert_eq!(met, 5);
}
