//! Fixed calls of drag.

use super::scene::{Scene, PLAIN, RUBBER};
use super::List;
use crate::axis_calls::LIMIT;
use crate::words::{around, away, LARGEST, SMALLEST};

/// Document 01's readings of a drag.
pub(super) fn readings(list: &mut List) {
    let no_extent = Scene {
        extent: 0.0,
        ..RUBBER
    };
    list.add(PLAIN.drag(10.0, 400.0));
    list.add(RUBBER.drag(10.0, 20.0));
    list.add(no_extent.drag(300.0, 50.0));
}

/// Without the rubber band a drag is a sum, with its rounding and its signs of zero.
pub(super) fn rubber_off(list: &mut List) {
    for (offset, delta) in [
        (10.0, -400.0),
        (310.0, 5.0),
        (-5.0, -5.0),
        (0.1, 0.2),
        (1e8, 3.0),
        (0.0, -0.0),
        (-0.0, -0.0),
        (20.0, -20.0),
        (-SMALLEST, SMALLEST),
    ] {
        list.add(PLAIN.drag(offset, delta));
    }
}

/// Inside the bounds a drag is free; exactly to an edge nothing is left, one step further something is.
pub(super) fn inside(list: &mut List) {
    for delta in around(10.0) {
        list.add(RUBBER.drag(290.0, delta));
        list.add(RUBBER.drag(10.0, -delta));
    }
    for (offset, delta) in [
        (290.0, 20.0),
        (290.0, 400.0),
        (10.0, -30.0),
        (10.0, -400.0),
        (300.0, 50.0),
        (0.0, -50.0),
        (0.0, -SMALLEST),
        (-0.0, -0.0),
        (-0.0, 0.0),
        (-0.0, -SMALLEST),
    ] {
        list.add(RUBBER.drag(offset, delta));
    }
}

/// Beyond either edge the resistance grows, until from one extent on nothing moves.
pub(super) fn further_out(list: &mut List) {
    for out in [5.0, 90.0, away(100.0, -1), 100.0, 250.0] {
        list.add(RUBBER.drag(300.0 + out, 10.0));
        list.add(RUBBER.drag(-out, -10.0));
    }
    list.add(RUBBER.drag(310.0, 0.0));
    list.add(RUBBER.drag(-10.0, -0.0));
    list.add(RUBBER.drag(away(300.0, 1), LIMIT));
    list.add(RUBBER.drag(-SMALLEST, -SMALLEST));
    for offset in [LARGEST, -3e38] {
        list.add(RUBBER.drag(offset, LIMIT));
        list.add(RUBBER.drag(offset, -LIMIT));
    }
}

/// Back towards the content: still outside, past the edge, as far as the other edge, stuck far out.
pub(super) fn back_again(list: &mut List) {
    for delta in [5.0, 50.0, 1000.0, LIMIT] {
        list.add(RUBBER.drag(310.0, -delta));
        list.add(RUBBER.drag(-10.0, delta));
    }
    list.add(RUBBER.drag(400.0, -500.0));
    list.add(RUBBER.drag(-99.0, 500_000.0));
    list.add(RUBBER.drag(away(300.0, 1), -1.0));
    list.add(RUBBER.drag(-SMALLEST, SMALLEST));
}

/// An overscroll left of exactly 0: from below its sign has changed, from above it has not.
pub(super) fn exactly_on_the_edge(list: &mut List) {
    let below_zero = Scene {
        min: -300.0,
        max: 0.0,
        ..RUBBER
    };
    for (out, bits) in [
        (50.0, 0x43b5_d174),
        (2.0, 0x4072_52c0), // this and the next delta both reach the edge
        (2.0, 0x4072_52c1),
        (11.0, 0x41c9_fea4), // as does the delta one step nearer here
        (11.0, 0x41c9_fea5),
    ] {
        let delta = f32::from_bits(bits);
        list.add(below_zero.drag(out, -delta));
        list.add(RUBBER.drag(-out, delta));
    }
}

/// Numbers whose last bit shows the order of the products and their rounding.
pub(super) fn roundings(list: &mut List) {
    for (offset, delta) in [(-0.3, -29.7), (-0.4, -4.4), (-37.1, 12.3), (-7.7, 55.1)] {
        list.add(RUBBER.drag(offset, delta));
    }
}

/// An extent not above 0 stops a drag outside; a tiny one stops it only once it is outside.
pub(super) fn strange_extents(list: &mut List) {
    for extent in [0.0, -0.0, -100.0, -SMALLEST, SMALLEST, 1e-30, LIMIT] {
        let scene = Scene { extent, ..RUBBER };
        list.add(scene.drag(290.0, 30.0));
        list.add(scene.drag(310.0, -30.0));
    }
}

/// Bounds of one number, of zeros of both signs, and on both sides of 0.
pub(super) fn strange_bounds(list: &mut List) {
    for (min, max) in [(0.0, 0.0), (-0.0, -0.0), (0.0, -0.0), (-50.5, 49.3)] {
        let scene = Scene { min, max, ..RUBBER };
        list.add(scene.drag(min, -5.0));
        list.add(scene.drag(max, 5.0));
        list.add(scene.drag(max + 20.0, -60.0));
    }
    let below_zero = Scene {
        min: -300.0,
        max: -0.0,
        ..RUBBER
    };
    list.add(below_zero.drag(0.0, 0.0));
}
