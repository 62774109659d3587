//! Document 01's readings on the axis and its corners, by value.

#[path = "common/axis.rs"]
mod common;

use common::axis;
use oracle::axis_calls::{drag, step, wheel, Dragged, Stepped, Wheeled};
use oracle::scroll_physics::{scroll_bounds, AxisPhysics, MouseWheelSource, WheelScroll};

fn scroll(delta: f32, source: Option<MouseWheelSource>) -> WheelScroll {
    WheelScroll {
        delta,
        source,
        can_chain_to_parent: false,
        dt: 0.0,
    }
}

fn dragged(offset: f32) -> Dragged {
    Dragged { refusal: 0, offset }
}

fn stepped(offset: f32, velocity: f32, answer: bool) -> Stepped {
    Stepped {
        refusal: 0,
        offset,
        velocity,
        answer,
    }
}

fn wheeled(offset: f32, velocity: f32, bounced: bool, answer: bool) -> Wheeled {
    Wheeled {
        refusal: 0,
        offset,
        velocity,
        bounced,
        answer,
    }
}

const TRACKPAD: Option<MouseWheelSource> = Some(MouseWheelSource::Trackpad);
const MOMENTUM: Option<MouseWheelSource> = Some(MouseWheelSource::Momentum);

#[test]
fn reading_of_the_range() {
    let range = scroll_bounds(-5.0);
    assert_eq!((range.min.to_bits(), range.max.to_bits()), (0, 0));
}

#[test]
fn readings_of_drag() {
    assert_eq!(drag(&axis(false), 10.0, 400.0), dragged(410.0));
    assert_eq!(drag(&axis(true), 10.0, 20.0), dragged(30.0));
    let no_extent = AxisPhysics {
        viewport_extent: 0.0,
        ..axis(true)
    };
    assert_eq!(drag(&no_extent, 300.0, 50.0), dragged(300.0));
}

#[test]
fn readings_of_wheel_without_rubber_band() {
    let axis = axis(false);
    for source in [None, Some(MouseWheelSource::Wheel), TRACKPAD, MOMENTUM] {
        let to_the_end = wheel(&axis, 290.0, 7.0, scroll(20.0, source), false);
        assert_eq!(to_the_end, wheeled(300.0, 7.0, false, true));
        let at_the_end = wheel(&axis, 300.0, 7.0, scroll(20.0, source), false);
        assert_eq!(at_the_end, wheeled(300.0, 7.0, false, false));
    }
}

#[test]
fn readings_of_wheel_with_rubber_band() {
    let axis = axis(true);
    let once = wheel(&axis, 300.0, 0.0, scroll(8.0, MOMENTUM), false);
    assert_eq!(once, wheeled(300.0, 0.0, true, true));
    let again = wheel(
        &axis,
        once.offset,
        once.velocity,
        scroll(8.0, MOMENTUM),
        true,
    );
    assert_eq!(again, once);
    let back = wheel(&axis, 310.0, 40.0, scroll(-15.0, TRACKPAD), false);
    assert_eq!(back, wheeled(295.0, 0.0, false, true));
}

#[test]
fn reading_of_a_held_step() {
    for velocity in [0.0, 90.0] {
        let held = step(&axis(true), 310.0, velocity, 0.016, true);
        assert_eq!(held, stepped(310.0, velocity, false));
    }
}

#[test]
fn an_extent_not_above_0_has_factor_0() {
    for viewport_extent in [0.0, -0.0, -100.0] {
        let axis = AxisPhysics {
            viewport_extent,
            ..axis(true)
        };
        assert_eq!(drag(&axis, 310.0, -30.0), dragged(310.0));
        assert_eq!(drag(&axis, -10.0, -30.0), dragged(-10.0));
        let pushed = wheel(&axis, 295.0, 0.0, scroll(8.0, TRACKPAD), false);
        assert_eq!(pushed, wheeled(300.0, 0.0, false, true));
    }
}

#[test]
fn a_resting_step_leaves_the_offset() {
    let mut axis = axis(false);
    assert_eq!(
        step(&axis, 310.0, 0.5, 0.016, false),
        stepped(310.0, 0.0, false)
    );
    axis.style.decay_time = 1024.0;
    assert_eq!(
        step(&axis, 20.0, -3e38, 0.016, false),
        stepped(20.0, 0.0, false)
    );
}

#[test]
fn no_delta_clears_the_bounce_flag_of_other_sources() {
    for rubber_band in [false, true] {
        let axis = axis(rubber_band);
        for source in [None, Some(MouseWheelSource::Unknown), TRACKPAD] {
            let cleared = wheel(&axis, 310.0, 5.0, scroll(-0.0, source), true);
            assert_eq!(cleared, wheeled(310.0, 5.0, false, false));
        }
        let kept = wheel(&axis, 310.0, 5.0, scroll(0.0, MOMENTUM), true);
        assert_eq!(kept, wheeled(310.0, 5.0, true, false));
    }
}

#[test]
fn momentum_after_a_bounce_moves_only_back() {
    let axis = axis(true);
    for (offset, delta) in [(150.0, 8.0), (310.0, 8.0), (-10.0, -8.0)] {
        let ignored = wheel(&axis, offset, 5.0, scroll(delta, MOMENTUM), true);
        assert_eq!(ignored, wheeled(offset, 5.0, true, true));
    }
    let back = wheel(&axis, 310.0, 5.0, scroll(-8.0, MOMENTUM), true);
    assert_eq!(back, wheeled(302.0, 0.0, true, true));
    // The product of overscroll and delta rounds to -0.
    let barely = wheel(&axis, -1e-20, 5.0, scroll(1e-30, MOMENTUM), true);
    assert_eq!(barely, wheeled(-1e-20, 5.0, true, true));
}
