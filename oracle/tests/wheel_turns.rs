//! Document 02's K6 by value: who takes a turn, and calls on which wrong statements of the law are false.

#[path = "common/axis.rs"]
mod common;

use common::axis;
use oracle::axis_calls::{turned, Wheeled};
use oracle::axis_vectors::fixed_wheel_turns::{
    back_from_the_start, left_while_moving, momentum_after_a_bounce, onto_the_end,
    trackpad_without_a_parent,
};
use oracle::axis_vectors::{fixed_list, Call};
use oracle::numbers::Rangef;
use oracle::scroll_physics::{MouseWheelSource, WheelScroll};
use oracle::wheel_law::{Ground, Turn};
use oracle::words::SMALLEST;

const TRACKPAD: Option<MouseWheelSource> = Some(MouseWheelSource::Trackpad);
const MOMENTUM: Option<MouseWheelSource> = Some(MouseWheelSource::Momentum);

const SOURCES: [Option<MouseWheelSource>; 5] = [
    None,
    Some(MouseWheelSource::Unknown),
    Some(MouseWheelSource::Wheel),
    TRACKPAD,
    MOMENTUM,
];

/// Bounds 0 to 300, a parent, no bounce before.
fn turn(rubber_band: bool, source: Option<MouseWheelSource>, offset: f32, delta: f32) -> Turn {
    Turn {
        axis: axis(rubber_band),
        offset,
        velocity: 5.0,
        scroll: WheelScroll {
            delta,
            source,
            can_chain_to_parent: true,
            dt: 1.0 / 60.0,
        },
        bounced: false,
    }
}

fn without_parent(mut turn: Turn) -> Turn {
    turn.scroll.can_chain_to_parent = false;
    turn
}

fn bounced(turn: Turn) -> Turn {
    Turn {
        bounced: true,
        ..turn
    }
}

/// The turn of a stored call, and its answer.
fn stored(call: Call) -> (Turn, Wheeled) {
    assert!(fixed_list().contains(&call));
    let turn = call.turn().expect("a wheel call");
    (turn, turned(&turn))
}

/// A statement about a turn and its answer.
type Statement = fn(&Turn, &Wheeled) -> bool;

/// That the statement is false of the call, of which the law holds.
fn assert_wrong(statement: Statement, call: Call) {
    let (turn, left) = stored(call);
    assert_eq!((left.refusal, turn.broken(&left)), (0, None));
    assert!(!statement(&turn, &left), "{turn:?} {left:?}");
}

#[test]
fn room_does_not_include_the_end() {
    assert_wrong(
        |turn, left| {
            let (bounds, delta) = (turn.axis.bounds, turn.scroll.delta);
            let can = (delta < 0.0 && bounds.min <= turn.offset)
                || (0.0 < delta && turn.offset <= bounds.max);
            let is_untaken = delta == 0.0 || !(can || turn.band() || turn.corner());
            left.answer != is_untaken
        },
        back_from_the_start(),
    );
}

#[test]
fn no_parent_is_a_ground_of_the_band() {
    assert_wrong(
        |turn, left| {
            let bounds = turn.axis.bounds;
            let is_outside = turn.offset < bounds.min || bounds.max < turn.offset;
            let may_stretch = [TRACKPAD, MOMENTUM].contains(&turn.scroll.source);
            let band = turn.axis.style.rubber_band && may_stretch && (turn.can() || is_outside);
            let is_untaken = turn.scroll.delta == 0.0 || !(turn.can() || band || turn.corner());
            left.answer != is_untaken
        },
        trackpad_without_a_parent(),
    );
}

#[test]
fn a_turn_that_is_left_does_not_stop_the_list() {
    assert_wrong(
        |_, left| left.answer || left.velocity == 0.0,
        left_while_moving(),
    );
}

#[test]
fn inside_the_bounds_includes_the_ends() {
    assert_wrong(
        |turn, left| {
            let bounds = turn.axis.bounds;
            let is_within = bounds.min < left.offset && left.offset < bounds.max;
            !left.answer || turn.axis.style.rubber_band || is_within
        },
        onto_the_end(),
    );
}

#[test]
fn momentum_after_a_bounce_is_a_ground() {
    assert_wrong(
        |turn, left| {
            let is_untaken = turn.scroll.delta == 0.0 || !(turn.can() || turn.band());
            left.answer != is_untaken
        },
        momentum_after_a_bounce(),
    );
}

#[test]
fn not_every_source_ends_with_the_flag_clear() {
    assert_wrong(|_, left| !left.bounced, momentum_after_a_bounce());
}

#[test]
fn the_named_calls_have_their_answers() {
    for (call, ground, offset, bounced, answer) in [
        (back_from_the_start(), Ground::Nobody, 0.0, false, false),
        (left_while_moving(), Ground::Nobody, 300.0, false, false),
        (onto_the_end(), Ground::Can, 300.0, false, true),
        (momentum_after_a_bounce(), Ground::Corner, 300.0, true, true),
    ] {
        let (turn, left) = stored(call);
        let expected = Wheeled {
            refusal: 0,
            offset,
            velocity: 5.0,
            bounced,
            answer,
        };
        assert_eq!((turn.ground(), left), (ground, expected));
    }
    let (turn, left) = stored(trackpad_without_a_parent());
    assert_eq!((turn.ground(), left.answer), (Ground::NoParent, true));
    assert!(300.0 < left.offset);
}

#[test]
fn no_delta_has_nothing_to_take() {
    for source in SOURCES {
        for delta in [0.0, -0.0] {
            for offset in [-10.0, 0.0, 150.0, 310.0] {
                let turn = bounced(without_parent(turn(true, source, offset, delta)));
                assert_eq!(turn.ground(), Ground::Zero);
                assert!(turn.is_untaken() && !turned(&turn).answer);
            }
        }
    }
}

/// Where more than one ground applies.
#[test]
fn the_first_ground_is_given() {
    let back = turn(true, MOMENTUM, 310.0, -8.0);
    let out = turn(true, MOMENTUM, 310.0, 8.0);
    let on_the_end = turn(true, MOMENTUM, 300.0, 8.0);
    for (turn, ground) in [
        (bounced(without_parent(back)), Ground::Can),
        (bounced(without_parent(out)), Ground::Overscroll),
        (bounced(without_parent(on_the_end)), Ground::NoParent),
        (bounced(on_the_end), Ground::Corner),
        (on_the_end, Ground::Nobody),
    ] {
        assert_eq!(turn.ground(), ground, "{turn:?}");
    }
}

/// With rubber band off, and of sources that never stretch it, only room counts.
#[test]
fn other_sources_stop_hard() {
    for source in SOURCES {
        let may_stretch = [TRACKPAD, MOMENTUM].contains(&source);
        for rubber_band in [false, true] {
            if rubber_band && may_stretch {
                continue;
            }
            for (offset, delta) in [(300.0, 8.0), (310.0, 8.0), (-10.0, -8.0)] {
                let turn = bounced(without_parent(turn(rubber_band, source, offset, delta)));
                assert_eq!(turn.ground(), Ground::Nobody, "{turn:?}");
                assert!(!turned(&turn).answer);
            }
        }
    }
}

/// Away from the bounds the offset stays outside; towards them it ends on the nearest end or inside.
#[test]
fn offsets_outside_stay_or_come_back() {
    for (offset, delta, expected) in [
        (310.0, 8.0, None),
        (310.0, -8.0, Some(300.0)),
        (310.0, -15.0, Some(295.0)),
        (-10.0, -8.0, None),
        (-10.0, 8.0, Some(0.0)),
        (3e38, 8.0, None),
        (3e38, -8.0, Some(300.0)),
    ] {
        let turn = turn(false, None, offset, delta);
        let left = turned(&turn);
        assert_eq!(left.answer, expected.is_some());
        assert_eq!(left.offset, expected.unwrap_or(offset));
        assert_eq!(turn.broken(&left), None);
    }
}

/// Both zeros are on the start; a turn that is left keeps the sign.
#[test]
fn both_zeros_are_on_the_start() {
    for offset in [0.0, -0.0_f32] {
        for source in SOURCES {
            let back = turn(false, source, offset, -8.0);
            let left = turned(&back);
            assert_eq!((back.ground(), left.answer), (Ground::Nobody, false));
            assert_eq!(left.offset.to_bits(), offset.to_bits());
            let on = turn(false, source, offset, 8.0);
            assert_eq!((on.ground(), turned(&on).offset), (Ground::Can, 8.0));
        }
        let banded = turn(true, TRACKPAD, offset, -8.0);
        assert_eq!(banded.ground(), Ground::Nobody);
        assert_eq!(without_parent(banded).ground(), Ground::NoParent);
    }
}

/// One step decides: the smallest delta is one, and the smallest overscroll too.
#[test]
fn subnormals_count() {
    let beyond = 300f32.next_up();
    for (offset, delta, ground) in [
        (SMALLEST, -8.0, Ground::Can),
        (SMALLEST, -SMALLEST, Ground::Can),
        (0.0, -SMALLEST, Ground::Nobody),
        (0.0, SMALLEST, Ground::Can),
        (-SMALLEST, -SMALLEST, Ground::Overscroll),
        (-SMALLEST, SMALLEST, Ground::Can),
        (300.0, SMALLEST, Ground::Nobody),
        (300.0, -SMALLEST, Ground::Can),
        (beyond, SMALLEST, Ground::Overscroll),
        (beyond, -SMALLEST, Ground::Can),
    ] {
        let turn = turn(true, TRACKPAD, offset, delta);
        let left = turned(&turn);
        assert_eq!(turn.ground(), ground, "{turn:?}");
        assert_eq!(left.answer, ground != Ground::Nobody, "{turn:?}");
        assert_eq!(turn.broken(&left), None);
    }
}

/// The difference of two numbers is 0 for equal ones alone.
#[test]
fn an_overscroll_is_an_offset_outside() {
    for bounds in [(0.0, 300.0), (SMALLEST, 3.0 * SMALLEST), (-1e-38, 1e-38)] {
        let (min, max) = bounds;
        for end in [min, max] {
            for offset in [end.next_down(), end, end.next_up()] {
                let is_out = offset < min || max < offset;
                let delta = if offset < max { -8.0 } else { 8.0 };
                let mut turn = turn(true, TRACKPAD, offset, delta);
                turn.axis.bounds = Rangef::new(min, max);
                let expected = is_out || turn.can();
                assert_eq!(turn.band(), expected, "{turn:?}");
                assert_eq!(turned(&turn).answer, expected, "{turn:?}");
            }
        }
    }
}
