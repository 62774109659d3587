//! Document 01's refusals of the axis calls.

use oracle::axis_calls::{drag, step, wheel, Stepped, Wheeled, LIMIT};
use oracle::numbers::Rangef;
use oracle::scroll_physics::{AxisPhysics, KineticScrollStyle, WheelScroll};

const NAN: f32 = f32::NAN;
const INF: f32 = f32::INFINITY;
const BEYOND: f32 = 1_048_576.1;

/// The numbers that a call may be handed: those of the axis, delta, dt, offset, velocity.
#[derive(Clone, Copy)]
struct Given {
    min: f32,
    max: f32,
    extent: f32,
    decay_time: f32,
    stop_distance: f32,
    delta: f32,
    dt: f32,
    offset: f32,
    velocity: f32,
}

const GOOD: Given = Given {
    min: 0.0,
    max: 300.0,
    extent: 100.0,
    decay_time: 1.0,
    stop_distance: 1.0,
    delta: 8.0,
    dt: 0.016,
    offset: 310.0,
    velocity: 40.0,
};

impl Given {
    fn axis(self) -> AxisPhysics {
        AxisPhysics {
            bounds: Rangef::new(self.min, self.max),
            viewport_extent: self.extent,
            style: KineticScrollStyle {
                decay_time: self.decay_time,
                stop_distance: self.stop_distance,
                rubber_band: true,
            },
        }
    }

    fn step(self) -> Stepped {
        step(&self.axis(), self.offset, self.velocity, self.dt, false)
    }

    fn wheel(self) -> Wheeled {
        let scroll = WheelScroll {
            delta: self.delta,
            source: None,
            can_chain_to_parent: false,
            dt: self.dt,
        };
        wheel(&self.axis(), self.offset, self.velocity, scroll, true)
    }

    /// The refusals of drag, step and wheel.
    fn refusals(self) -> [u32; 3] {
        let dragged = drag(&self.axis(), self.offset, self.delta);
        [dragged.refusal, self.step().refusal, self.wheel().refusal]
    }
}

#[test]
fn three_is_given_by_each_number_handed() {
    for x in [NAN, INF, -INF, BEYOND, -BEYOND] {
        for given in [
            Given { min: x, ..GOOD },
            Given { max: x, ..GOOD },
            Given { extent: x, ..GOOD },
            Given {
                decay_time: x,
                ..GOOD
            },
            Given {
                stop_distance: x,
                ..GOOD
            },
        ] {
            assert_eq!(given.refusals(), [3, 3, 3], "{x}");
        }
        assert_eq!(Given { delta: x, ..GOOD }.refusals(), [3, 0, 3]);
        assert_eq!(Given { dt: x, ..GOOD }.refusals(), [0, 3, 3]);
    }
}

#[test]
fn the_limit_itself_passes() {
    let widest = Given {
        min: -LIMIT,
        max: LIMIT,
        extent: LIMIT,
        stop_distance: LIMIT,
        delta: -LIMIT,
        dt: LIMIT,
        ..GOOD
    };
    assert_eq!(widest.refusals(), [0, 0, 0]);
}

#[test]
fn four_is_given_by_reversed_bounds_and_a_negative_dt() {
    let reversed = Given { min: 301.0, ..GOOD };
    assert_eq!(reversed.refusals(), [4, 4, 4]);
    assert_eq!(Given { dt: -1e-45, ..GOOD }.refusals(), [0, 4, 4]);
    let passing = Given {
        min: 0.0,
        max: -0.0,
        extent: -5.0,
        dt: -0.0,
        ..GOOD
    };
    assert_eq!(passing.refusals(), [0, 0, 0]);
}

#[test]
fn five_is_given_by_the_style_to_every_kind() {
    for (decay_time, expected) in [
        (1.0 / 1024.0, 0),
        (1.0 / 1025.0, 5),
        (1024.0, 0),
        (1024.0001, 5),
        (0.0, 5),
        (-1.0, 5),
    ] {
        let given = Given { decay_time, ..GOOD };
        assert_eq!(given.refusals(), [expected; 3], "{decay_time}");
    }
    for (stop_distance, expected) in [(0.0, 0), (-0.0, 0), (-1e-45, 5)] {
        let given = Given {
            stop_distance,
            ..GOOD
        };
        assert_eq!(given.refusals(), [expected; 3], "{stop_distance}");
    }
}

#[test]
fn six_is_given_by_what_is_held() {
    for x in [NAN, INF, -INF] {
        assert_eq!(Given { offset: x, ..GOOD }.refusals(), [6, 6, 6]);
        assert_eq!(
            Given {
                velocity: x,
                ..GOOD
            }
            .refusals(),
            [0, 6, 6]
        );
    }
}

#[test]
fn the_lower_refusal_is_given() {
    let six = Given {
        offset: NAN,
        ..GOOD
    };
    let five = Given {
        decay_time: 0.0,
        ..six
    };
    let four = Given {
        max: -1.0,
        dt: -1.0,
        ..five
    };
    let three = Given {
        delta: INF,
        dt: INF,
        ..four
    };
    assert_eq!(six.refusals(), [6; 3]);
    assert_eq!(five.refusals(), [5; 3]);
    assert_eq!(four.refusals(), [4; 3]);
    assert_eq!(three.refusals(), [3; 3]);
}

#[test]
fn eight_is_given_by_an_answer_that_is_not_finite() {
    let far = Given {
        offset: 3e38,
        ..GOOD
    };
    assert_eq!(far.refusals(), [0, 8, 0]);
    let fast = Given {
        velocity: 1e38,
        ..GOOD
    };
    assert_eq!(fast.refusals(), [0, 8, 0]);
}

#[test]
fn a_refusal_returns_what_was_given() {
    let far = Given {
        offset: 3e38,
        ..GOOD
    };
    let expected = Stepped {
        refusal: 8,
        offset: 3e38,
        velocity: 40.0,
        answer: false,
    };
    assert_eq!(far.step(), expected);
    let expected = Wheeled {
        refusal: 3,
        offset: 310.0,
        velocity: 40.0,
        bounced: true,
        answer: false,
    };
    assert_eq!(
        Given {
            extent: INF,
            ..GOOD
        }
        .wheel(),
        expected
    );
}
