//! Fixed calls of wheel: where its comparisons turn.

use super::scene::{Scene, Wheel, MOMENTUM, PLAIN, RUBBER, SCROLL, TRACKPAD};
use super::List;
use crate::axis_calls::LIMIT;
use crate::words::{around, away, LARGEST, SMALLEST};

/// A scroll area inside another one, so that only room or an overscroll lets the rubber band act.
const CHAINED: Wheel = Wheel {
    can_chain: true,
    ..SCROLL
};

/// Momentum inside another scroll area.
const CHAINED_MOMENTUM: Wheel = Wheel {
    source: MOMENTUM,
    ..CHAINED
};

/// An offset at an end has no room that way, one step inside it has.
pub(super) fn bounds_are_strict(list: &mut List) {
    for offset in around(300.0) {
        for delta in [1.0, -1.0] {
            let up = Wheel {
                offset,
                delta,
                ..CHAINED
            };
            list.add(PLAIN.wheel(up));
            list.add(RUBBER.wheel(up));
        }
    }
    for offset in [SMALLEST, -SMALLEST, 0.0, -0.0] {
        let down = Wheel {
            offset,
            delta: -1.0,
            ..CHAINED
        };
        list.add(PLAIN.wheel(down));
        list.add(RUBBER.wheel(Wheel {
            source: MOMENTUM,
            ..down
        }));
    }
}

/// Bounds of one number leave no room: only the rubber band can act, and not where a parent is.
pub(super) fn no_room(list: &mut List) {
    let scene = Scene { max: 0.0, ..RUBBER };
    for source in [TRACKPAD, MOMENTUM] {
        for can_chain in [false, true] {
            for delta in [3.0, -3.0] {
                list.add(scene.wheel(Wheel {
                    offset: 0.0,
                    delta,
                    source,
                    can_chain,
                    ..SCROLL
                }));
            }
        }
    }
}

/// Back towards the content, one to one: past the edge, and past the other edge too.
pub(super) fn heading_back(list: &mut List) {
    for source in [TRACKPAD, MOMENTUM] {
        for (offset, delta) in [(310.0, -400.0), (-10.3, 15.5)] {
            list.add(RUBBER.wheel(Wheel {
                offset,
                delta,
                source,
                bounced: source == MOMENTUM,
                ..CHAINED
            }));
        }
    }
}

/// The product of overscroll and delta rounds to a zero, or just does not.
pub(super) fn rounded_product(list: &mut List) {
    for (offset, delta) in [(-SMALLEST, 0.5), (-SMALLEST, away(0.5, 1)), (-1e-20, 1e-30)] {
        let nearly = Wheel {
            offset,
            delta,
            ..SCROLL
        };
        list.add(RUBBER.wheel(nearly));
        for bounced in [false, true] {
            list.add(RUBBER.wheel(Wheel {
                source: MOMENTUM,
                bounced,
                ..nearly
            }));
        }
    }
}

/// Trackpad beyond the edge: a third of the extent is the most, and a tiny extent has no third.
pub(super) fn trackpad_resistance(list: &mut List) {
    for (offset, delta) in [
        (290.0, 40.0),
        (10.0, -40.0),
        (300.0, LIMIT),
        (320.0, 10.0),
        (334.0, 10.0),
        (-20.0, -10.0),
        (0.0, -SMALLEST),
    ] {
        list.add(RUBBER.wheel(Wheel {
            offset,
            delta,
            ..SCROLL
        }));
    }
    for extent in [0.0, -0.0, -100.0, SMALLEST, 3.0 * SMALLEST, LIMIT] {
        let scene = Scene { extent, ..RUBBER };
        let offset = 295.0;
        list.add(scene.wheel(Wheel { offset, ..SCROLL }));
    }
    // The last bit shows that the extent is multiplied by a third, not divided by 3.
    let third = Scene {
        extent: 19.2,
        ..RUBBER
    };
    list.add(third.wheel(Wheel {
        offset: -5.3,
        delta: -3.3,
        ..SCROLL
    }));
}

/// Momentum exactly to an edge is contained, one step beyond it bounces; a bounce while inside.
pub(super) fn momentum_reaches_the_edge(list: &mut List) {
    for delta in around(10.0) {
        for (offset, delta) in [(290.0, delta), (10.0, -delta)] {
            list.add(RUBBER.wheel(Wheel {
                offset,
                delta,
                ..CHAINED_MOMENTUM
            }));
        }
    }
    for offset in [295.0, 305.0, -5.0] {
        for bounced in [false, true] {
            list.add(RUBBER.wheel(Wheel {
                offset,
                delta: if offset < 0.0 { -30.0 } else { 30.0 },
                bounced,
                ..CHAINED_MOMENTUM
            }));
        }
    }
}

/// The speed of a bounce: none for no time, limited by the room left, none without room.
pub(super) fn bounce_speeds(list: &mut List) {
    for dt in [0.0, -0.0, SMALLEST, 0.001, 0.1, LIMIT] {
        for (offset, delta) in [(320.3, 8.0), (0.0, -8.0)] {
            list.add(RUBBER.wheel(Wheel {
                offset,
                delta,
                dt,
                source: MOMENTUM,
                ..SCROLL
            }));
        }
    }
    // The last bit of 1.7 and of 5.9 shows the order of the steps.
    for extent in [0.0, -100.0, SMALLEST, 1.7, 5.9, LIMIT] {
        let scene = Scene { extent, ..RUBBER };
        list.add(scene.wheel(Wheel {
            offset: 300.0,
            dt: 0.001,
            source: MOMENTUM,
            ..SCROLL
        }));
    }
}

/// Offsets so large that a delta does not move them and its product overflows; a clamp brings them back.
pub(super) fn huge_offsets(list: &mut List) {
    for offset in [-3e38, LARGEST] {
        for (source, delta) in [
            (0, if offset < 0.0 { LIMIT } else { -LIMIT }),
            (TRACKPAD, LIMIT),
            (TRACKPAD, -LIMIT),
            (MOMENTUM, 5.0),
            (MOMENTUM, -5.0),
        ] {
            list.add(RUBBER.wheel(Wheel {
                offset,
                velocity: LARGEST,
                delta,
                source,
                ..CHAINED
            }));
        }
    }
}

/// Zeros of both signs as offset and as bounds: they are equal, and a sum may change the sign.
pub(super) fn zeros(list: &mut List) {
    let below_zero = Scene {
        min: -300.0,
        max: -0.0,
        ..PLAIN
    };
    list.add(below_zero.wheel(Wheel {
        offset: -8.0,
        ..SCROLL
    }));
    for (min, max) in [(0.0, 300.0), (-0.0, 300.0), (0.0, -0.0)] {
        let scene = Scene { min, max, ..RUBBER };
        for (source, delta) in [(0, -8.0), (TRACKPAD, 8.0), (MOMENTUM, -8.0)] {
            list.add(scene.wheel(Wheel {
                offset: -0.0,
                velocity: -0.0,
                delta,
                source,
                dt: 0.0,
                ..SCROLL
            }));
        }
    }
}
