//! Fixed calls: rectangles.

use super::List;
use crate::words::{away, LARGEST, SMALLEST};

/// Zeros of both signs, sums and differences that round or overflow, a reversed rectangle.
pub(super) fn rectangle_sizes(list: &mut List) {
    for [a, b, c, d] in [
        [0.0, -0.0, -0.0, -0.0],
        [-0.0, 5.0, 0.0, -5.0],
        [1e8, 0.1, 1.0, 0.2],
        [LARGEST, -LARGEST, LARGEST, -LARGEST],
        [SMALLEST, -SMALLEST, SMALLEST, SMALLEST],
    ] {
        list.floats("rect_from_min_size", &[a, b, c, d]);
        list.floats("rect_size", &[a, b, c, d]);
    }
    list.floats("rect_size", &[0.1, 10.0, 200.3, 5.0]);
}

/// Corners that tie in zeros of both signs in both orders, one inside the other, apart, reversed.
pub(super) fn rectangle_meetings(list: &mut List) {
    for [first, second] in [
        [[0.0, -0.0, 0.0, -0.0], [-0.0, 0.0, -0.0, 0.0]],
        [[-0.0, 0.0, -0.0, 0.0], [0.0, -0.0, 0.0, -0.0]],
        [[0.0, 0.0, 100.0, 100.0], [10.0, 20.0, 30.0, 40.0]],
        [[0.0, 0.0, 10.0, 10.0], [20.0, 30.0, 40.0, 50.0]],
        [[10.0, 10.0, 0.0, 0.0], [5.0, -5.0, 5.0, 5.0]],
    ] {
        list.floats("rect_intersect", &[first, second].concat());
    }
}

/// Each corner is held and one step beyond each side is not; zeros are equal; reversed holds nothing.
pub(super) fn rectangle_points(list: &mut List) {
    let (left, top, right, bottom) = (10.0, 20.0, 200.0, 100.0);
    for [x, y] in [
        [left, top],
        [right, top],
        [left, bottom],
        [right, bottom],
        [away(left, -1), 50.0],
        [away(right, 1), 50.0],
        [50.0, away(top, -1)],
        [50.0, away(bottom, 1)],
    ] {
        list.floats("rect_contains", &[left, top, right, bottom, x, y]);
    }
    list.floats("rect_contains", &[0.0, -0.0, -0.0, 0.0, -0.0, -0.0]);
    list.floats("rect_contains", &[0.0, 0.0, 1.0, 1.0, -SMALLEST, 0.5]);
    list.floats("rect_contains", &[10.0, 0.0, 0.0, 10.0, 5.0, 5.0]);
    list.floats("rect_contains", &[0.0, 10.0, 10.0, 0.0, 5.0, 5.0]);
}
