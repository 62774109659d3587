//! What the scenes meet.

use oracle::clock::{run, Remembering};
use oracle::frame::Fields;
use oracle::frame_begin::{begin, dt};
use oracle::frame_call::Output;
use oracle::frame_state::State;
use oracle::numbers::flag_as_number;
use oracle::scenes::scene_list;
use oracle::scroll_physics::MouseWheelSource;
use oracle::words::INF;

fn word(frame: &[u8], number: usize) -> u32 {
    let end = 4 * number;
    u32::from_le_bytes(frame[end - 4..end].try_into().expect("four bytes"))
}

/// The frames of a list with their answers.
fn played(seed: u64, count: usize) -> Vec<(Vec<u8>, Output)> {
    let list = scene_list(seed, count);
    let outputs: Vec<Output> = run(&list.concat()).map(|(_, output)| output).collect();
    assert_eq!(outputs.len(), count);
    list.into_iter().zip(outputs).collect()
}

#[test]
fn only_the_last_frame_is_short() {
    for count in [2, 7, 500] {
        let list = scene_list(3, count);
        assert_eq!(list.len(), count);
        let (last, others) = list.split_last().expect("a frame");
        assert!((1..416).contains(&last.len()));
        assert!(others.iter().all(|frame| frame.len() == 416));
    }
    assert_eq!(scene_list(3, 1)[0].len(), 416);
    assert!(scene_list(3, 0).is_empty());
}

#[test]
fn a_seed_gives_one_list() {
    assert_eq!(scene_list(5, 1000), scene_list(5, 1000));
    assert_ne!(scene_list(5, 1000), scene_list(6, 1000));
}

#[test]
fn every_refusal_but_6_is_met() {
    let played = played(1, 20_000);
    let met = |refusal| {
        let outputs = played.iter().map(|(_, output)| output.refusal);
        outputs.filter(|given| *given == refusal).count()
    };
    assert_eq!((met(1), met(6)), (1, 0));
    for refusal in [2, 3, 4, 5, 7, 8, 12] {
        assert!(met(refusal) >= 20, "{refusal}: {}", met(refusal));
    }
    assert!(met(0) >= 18_000);
}

#[test]
fn every_kind_and_option_is_among_the_accepted_frames() {
    let played = played(2, 20_000);
    let accepted = || played.iter().filter(|(_, output)| output.refusal == 0);
    let met = |place, value| accepted().any(|(frame, _)| word(frame, place) == value);
    for (place, last) in [(9, 2), (20, 2), (63, 4)] {
        assert!((0..=last).all(|value| met(place, value)), "{place}");
    }
    let flags = [
        1, 2, 3, 4, 10, 15, 17, 19, 21, 24, 25, 26, 27, 36, 39, 48, 49, 50, 54, 61, 62, 72, 73, 74,
        77, 78, 79, 91, 98,
    ];
    for place in flags {
        assert!(met(place, 0) && met(place, 1), "{place}");
    }
    for (flag, align) in [(91, 94), (98, 101)] {
        let aims = |(frame, _): &&(Vec<u8>, Output), kind| {
            word(frame, flag) == 1 && word(frame, align) == kind
        };
        assert!((0..=3).all(|kind| accepted().any(|played| aims(&played, kind))));
    }
}

/// Each of these is in at least one frame of a hundred.
#[test]
fn the_states_are_of_every_kind() {
    let played = played(4, 20_000);
    let least = |name: &str, holds: fn(&State, usize) -> bool| {
        for d in 0..2 {
            let met = played.iter().filter(|(_, output)| holds(&output.state, d));
            assert!(met.count() >= 200, "{name}");
        }
    };
    least("target", |state, d| state.offset_target[d].is_some());
    least("press", |state, d| {
        state.scroll_start_offset_from_top_left[d].is_some()
    });
    least("velocity", |state, d| state.vel[d] != 0.0);
    least("bounced", |state, d| state.bounced_this_momentum[d]);
    least("stuck", |state, d| state.scroll_stuck_to_end[d]);
    least("shown", |state, d| state.show_scroll[d]);
    least("interaction", |state, d| state.scroll_bar_interaction[d]);
    least("before the start", |state, d| state.offset[d] < 0.0);
    least("beyond the end", |state, d| {
        state.offset[d] > state.max_offset[d].max(0.0)
    });
    least("between", |state, d| {
        0.0 < state.offset[d] && state.offset[d] < state.max_offset[d]
    });
}

#[test]
fn what_is_accepted_is_finite_and_what_is_refused_changes_nothing() {
    let mut before = Remembering::default();
    for (left, output) in run(&scene_list(7, 20_000).concat()) {
        if output.refusal == 0 {
            assert_eq!((left.refusal(), left.egui), (0, output.state));
        } else {
            assert_eq!(left.record(), before.record());
            assert_eq!(output.record(), [0; 25]);
        }
        before = left;
    }
}

/// For each axis that springs or coasts in an accepted frame on that state: whether it springs, and its exponent.
fn exponents(state: State, frame: &[u8]) -> Vec<(bool, f32)> {
    let fields = Fields::of(frame);
    let (settings, host) = (fields.settings, fields.host);
    let prepared = begin(state, &fields);
    let drag = prepared.background_drag_response;
    if drag.is_some_and(|response| response.dragged) {
        return Vec::new();
    }
    let released = drag.is_some_and(|response| response.drag_stopped);
    let held = host.scroll_source == Some(MouseWheelSource::Trackpad)
        && host.rect_contains_pointer(prepared.inner_rect);
    let axes = (0..2).filter_map(|d| {
        let physics = prepared.axis_physics[d];
        let offset = [settings.offset_x, settings.offset_y][d].unwrap_or(state.offset[d]);
        if physics.is_rubber_banding(offset) {
            return (!held).then_some((true, -10.0 * dt(&fields)));
        }
        let thrown = flag_as_number(settings.direction_enabled[d]) * host.pointer_velocity[d];
        let velocity = if released { thrown } else { state.vel[d] };
        let left = velocity.abs() * physics.style.decay_time;
        let coasts = physics.style.stop_distance <= left && left.is_finite();
        // A velocity of 0 would not show what exp is.
        (coasts && velocity != 0.0).then_some((false, -dt(&fields) / physics.style.decay_time))
    });
    axes.collect()
}

/// dt is cut at 0.1, so that a spring's exponent is -1 at the least, and a coast's -102.4.
#[test]
fn coasts_meet_every_number_of_halvings_and_springs_need_none() {
    let mut state = State::default();
    let mut met = Vec::new();
    for (frame, output) in played(8, 20_000) {
        if output.refusal == 0 {
            met.extend(exponents(state, &frame));
            state = output.state;
        }
    }
    let count = |springs, low: f32, high: f32| {
        let inside = |x: f32| low <= x && x < high;
        let found = met.iter().filter(|one| one.0 == springs && inside(one.1));
        found.count()
    };
    let ends = [INF, -16.0, -32.0, -64.0, -80.0, -INF];
    for pair in ends.windows(2) {
        assert!(count(false, pair[1], pair[0]) >= 40, "{pair:?}");
    }
    assert!(count(true, -1.0, -0.1) >= 40);
    assert_eq!(count(true, -INF, -1.0) + count(false, -INF, -102.5), 0);
    // The ends themselves.
    for end in &ends[1..5] {
        assert!(met.contains(&(false, *end)), "{end}");
    }
}

/// That each branch but those of tables, runs, resets, who takes a turn, bad words and drawers is met so often in a list of scenes; a
/// frame counts when it is made and when it is run.
#[cfg(feature = "branches")]
fn assert_every_branch_is_met(seed: u64, count: usize, least: u64) {
    use oracle::branches::{count_of, BRANCHES, OF_TABLES};
    use oracle::branches::{OF_BAD_WORDS, OF_DRAWERS, OF_RESETS, OF_RUNS, OF_WHEEL};
    played(seed, count);
    let others = [OF_RUNS, OF_RESETS, OF_WHEEL, OF_BAD_WORDS, OF_DRAWERS].concat();
    let is_of_frames = |named: &&(_, _)| !OF_TABLES.contains(&named.0) && !others.contains(named);
    for (branch, words) in BRANCHES.iter().filter(is_of_frames) {
        let met = count_of(*branch) / 2;
        assert!(met >= least, "{words}: {met}");
    }
}

#[cfg(feature = "branches")]
#[test]
fn every_branch_is_met() {
    assert_every_branch_is_met(9, 20_000, 10);
}

/// The list that is stored for the gate.
#[cfg(feature = "branches")]
#[test]
fn the_stored_frames_meet_every_branch() {
    assert_every_branch_is_met(2080, 640, 1);
}
