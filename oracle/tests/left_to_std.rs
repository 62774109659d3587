//! What egui's text calls of Rust's library and the oracle leaves as it is: document 01's words mean the same.

use std::hint::black_box;

use oracle::numbers;

/// All that are not a number are one.
fn is_same(x: f32, y: f32) -> bool {
    x.to_bits() == y.to_bits() || x.is_nan() && y.is_nan()
}

/// Other numbers for this one, of any kind.
fn others(bits: u32) -> (f32, f32) {
    let first = bits.wrapping_mul(0x9e37_79b9) ^ 0x85eb_ca6b;
    let second = bits.rotate_left(13).wrapping_mul(0xc2b2_ae35);
    (f32::from_bits(first), f32::from_bits(second))
}

fn check(bits: u32) {
    let x = f32::from_bits(bits);
    let (y, z) = others(bits);
    assert!(is_same(x.abs(), numbers::abs(x)), "abs of {bits:08x}");
    assert!(is_same(x.ceil(), numbers::ceil(x)), "ceil of {bits:08x}");
    let two = black_box(2);
    assert!(is_same(x.powi(2), numbers::powi2(x)), "powi of {bits:08x}");
    assert!(is_same(x.powi(two), x.powi(2)), "powi of {bits:08x}");
    let is_finite = bits >> 23 & 0xff != 0xff;
    assert_eq!(x.is_finite(), is_finite, "is_finite of {bits:08x}");
    // Document 01 has the sign of a not-a-number clear; no delta is one.
    if !y.is_nan() {
        let signed = x.copysign(y);
        assert!(is_same(signed, numbers::copysign(x, y)), "{bits:08x}");
    }
    let zeros = [(0.0, -0.0), (-0.0, 0.0)];
    for (low, high) in [(y, z), (z, y), (x, y), (y, x), (x, x)]
        .into_iter()
        .chain(zeros)
    {
        check_clamp(x, low, high);
    }
}

/// Rust's own panics where the range is none.
fn check_clamp(x: f32, low: f32, high: f32) {
    if low <= high {
        let clamped = x.clamp(low, high);
        let bits = x.to_bits();
        assert!(is_same(clamped, numbers::clamp(x, low, high)), "{bits:08x}");
    }
}

#[test]
fn every_97th_number_is_as_document_01_says() {
    (0..=u32::MAX).step_by(97).for_each(check);
}

/// In about a minute.
#[test]
#[ignore = "takes every number"]
fn every_number_is_as_document_01_says() {
    (0..=u32::MAX).for_each(check);
}
