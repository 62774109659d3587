//! emath's own names and operands, as egui's text uses them, against the functions that they stand for.

use emath::{numbers, pos2, vec2, Align, GuiRounding as _, NumExt as _, Pos2};
use emath::{Rangef, Rect, Stated as _, Vec2, Vec2b};
use oracle::random::Random;
use oracle::tables::{good, kept, under};

/// Numbers of either sign, the zeros and the infinities among them.
fn numbers_of(random: &mut Random) -> [f32; 5] {
    [(); 5].map(|()| match random.below(8) {
        0 => 0.0,
        1 => -0.0,
        2 => f32::INFINITY,
        3 => f32::NEG_INFINITY,
        _ => random.below(4_001) as f32 / 16.0 - 125.0,
    })
}

#[test]
fn a_range_keeps_its_ends_as_they_stand() {
    let range = Rangef::from(3.0..=-2.0);
    assert_eq!(range, Rangef::new(3.0, -2.0));
}

#[test]
fn functions_of_ranges_are_those_of_their_ends() {
    let random = &mut Random::new(1);
    for _ in 0..10_000 {
        let [x, a, b, c, d] = numbers_of(random);
        let found = [
            emath::lerp(a..=b, x),
            emath::lerp(Rangef::new(a, b), x),
            emath::remap(x, a..=b, c..=d),
            emath::remap_clamp(x, a..=b, Rangef::new(c, d)),
        ];
        let expected = [
            numbers::lerp(a, b, x),
            numbers::lerp(a, b, x),
            numbers::remap(x, a, b, c, d),
            numbers::remap_clamp(x, a, b, c, d),
        ];
        for (found, expected) in found.into_iter().zip(expected) {
            assert!(found.to_bits() == expected.to_bits() || found.is_nan() && expected.is_nan());
        }
    }
    assert_eq!(emath::remap(0.5, 0.0..=1.0, -1.0..=1.0), 0.0);
}

#[test]
fn the_ease_is_the_one_handed_in() {
    for time in [9.5, 10.0, 10.25, 10.5, 11.0, 12.0] {
        let eased = emath::interpolation_factor((10.0, 12.0), time, 0.25, emath::ease_in_ease_out);
        assert_eq!(eased, numbers::interpolation_factor(10.0, 12.0, time, 0.25));
    }
    let plain = emath::interpolation_factor((10.0, 12.0), 11.0, 0.5, |t| t);
    assert_eq!(plain, (0.5 - 0.25) / (1.0 - 0.25));
}

#[test]
fn limits_and_stated_methods_settle_ties_of_zeros() {
    for (a, b) in [(0.0, -0.0), (-0.0, 0.0), (1.0, 2.0), (2.0, 1.0)] {
        let most = [
            a.at_most(b),
            a.stated_min(b),
            vec2(a, 0.0).at_most(vec2(b, 0.0)).x,
        ];
        assert_eq!(most.map(f32::to_bits), [numbers::min(a, b).to_bits(); 3]);
        let least = [
            a.at_least(b),
            a.stated_max(b),
            vec2(0.0, a).at_least(vec2(0.0, b)).y,
        ];
        assert_eq!(least.map(f32::to_bits), [numbers::max(a, b).to_bits(); 3]);
    }
    assert_eq!(
        [0.0, -0.0, f32::NAN].map(|x| x.stated_signum()),
        [1.0, -1.0, 1.0]
    );
}

#[test]
fn stated_exp_is_by_the_table_that_is_given() {
    for given in good(2) {
        let table = kept(given.table);
        let found = under(table, || (-20.0).stated_exp());
        assert_eq!(found, numbers::exp_by(table, -20.0), "{}", given.name);
    }
    assert_eq!((-20.0).stated_exp(), numbers::exp(-20.0));
}

#[test]
fn pairs_are_taken_part_by_part() {
    let (a, b) = (vec2(1.0, -2.0), Vec2::from([3.0, 0.5]));
    assert_eq!(a + b, vec2(4.0, -1.5));
    assert_eq!(a - b, vec2(-2.0, -2.5));
    assert_eq!(a * b, vec2(3.0, -1.0));
    assert_eq!(a * 2.0, vec2(2.0, -4.0));
    assert_eq!(<[f32; 2]>::from(-a), [-1.0, 2.0]);
    assert_eq!(a.yx(), Vec2::new(-2.0, 1.0));
    assert_eq!(Pos2::ZERO + a - b, pos2(-2.0, -2.5));
    assert_eq!(pos2(4.0, 4.0) - pos2(1.0, 5.0), vec2(3.0, -1.0));
    let mut flags = Vec2b::from([false, true]);
    assert_eq!((flags.to_vec2(), flags.any()), (vec2(0.0, 1.0), true));
    flags[1] = flags[0];
    assert_eq!((flags, flags.any()), (Vec2b::FALSE, false));
    assert_eq!(Vec2b::from(true), Vec2b::TRUE);
    assert_eq!(Vec2::splat(f32::INFINITY), Vec2::INFINITY);
}

#[test]
fn rectangles_have_their_sides_and_corners() {
    let rect = Rect::from_x_y_ranges(1.0..=4.0, Rangef::new(2.0, 8.0));
    assert_eq!(rect, Rect::from_min_size(pos2(1.0, 2.0), vec2(3.0, 6.0)));
    assert_eq!([rect.left(), rect.top()], [1.0, 2.0]);
    assert_eq!([rect.right(), rect.bottom()], [4.0, 8.0]);
    assert_eq!((rect.left_top(), rect.right_bottom()), (rect.min, rect.max));
    assert_eq!(rect.x_range(), Rangef::new(1.0, 4.0));
    assert_eq!(rect.y_range(), Rangef::new(2.0, 8.0));
    assert_eq!(
        [rect.size()[0], rect.size()[1]],
        [rect.width(), rect.height()]
    );
    assert_eq!(rect.round_to_pixels(1.5).round_ui(), rect);
    assert_eq!(Align::Center.to_factor(), 0.5);
}
