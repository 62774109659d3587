//! The stand-ins of document 01 against Rust's own operations and the values that the papers give; exp has its own file.

use oracle::numbers::*;

/// The same number bit for bit, or both a not-a-number.
fn same(a: f32, b: f32) -> bool {
    a.to_bits() == b.to_bits() || (a.is_nan() && b.is_nan())
}

/// A pseudo-random sequence of words (xorshift).
fn next_word(word: &mut u64) -> u64 {
    *word ^= *word << 13;
    *word ^= *word >> 7;
    *word ^= *word << 17;
    *word
}

/// Both signs of an f64 narrow as Rust narrows them.
fn check_narrow(magnitude: u64) {
    for sign in [0, 1 << 63] {
        let x = f64::from_bits(sign | magnitude);
        assert!(same(narrow(x), x as f32), "narrow {:016x}", x.to_bits());
    }
}

#[test]
fn narrow_agrees_near_every_half_bit() {
    let fraction = (1u64 << 52) - 1;
    for exponent in 0..0x800u64 {
        for place in 0..52 {
            let half = 1u64 << place;
            // The bits above the half: none, the odd one, the even one above it, all.
            for upper in [0, half << 1, half << 2, fraction & !(half * 2 - 1)] {
                for low in [0, half - 1, half, half + 1, half * 2 - 1] {
                    check_narrow(exponent << 52 | ((upper | low) & fraction));
                }
            }
        }
    }
}

#[test]
fn narrow_agrees_on_random_significands() {
    let mut word = 0x9e37_79b9_7f4a_7c15;
    for exponent in 0..0x800u64 {
        for _ in 0..4000 {
            check_narrow(exponent << 52 | next_word(&mut word) >> 12);
        }
    }
}

#[test]
fn narrow_agrees_at_every_kind_of_tie() {
    // The middle of two neighbours among the f32, and one f64 step to each side.
    for bits in (0..0x7f7f_ffff_u32).step_by(997).chain(0..2000) {
        let low = f64::from(f32::from_bits(bits));
        let high = f64::from(f32::from_bits(bits + 1));
        let middle = ((low + high) / 2.0).to_bits();
        for magnitude in [middle - 1, middle, middle + 1] {
            check_narrow(magnitude);
        }
    }
}

#[test]
fn narrow_undoes_widen() {
    for bits in (0..=u32::MAX).step_by(509) {
        let x = f32::from_bits(bits);
        assert!(same(narrow(widen(x)), x), "{bits:08x}");
    }
}

#[test]
fn ceil_agrees_through_the_patterns() {
    for bits in (0..=u32::MAX).step_by(37) {
        let x = f32::from_bits(bits);
        assert!(same(ceil(x), x.ceil()), "ceil {bits:08x}");
    }
}

#[test]
fn ceil_agrees_on_every_exponent() {
    for high in 0..0x200u32 {
        for place in 0..24 {
            let unit = 1u32 << place;
            for fraction in [0, unit - 1, unit, unit + 1, 0x80_0000 - unit] {
                let bits = high << 23 | (fraction & 0x7f_ffff);
                let x = f32::from_bits(bits);
                assert!(same(ceil(x), x.ceil()), "ceil {bits:08x}");
            }
        }
    }
}

#[test]
fn abs_copysign_and_signum_agree() {
    let signs = [0.0f32, -0.0, 2.5, -2.5, f32::INFINITY, f32::NEG_INFINITY];
    for bits in (0..=u32::MAX).step_by(251) {
        let x = f32::from_bits(bits);
        assert!(same(abs(x), x.abs()), "abs {bits:08x}");
        for y in signs {
            assert!(same(copysign(x, y), x.copysign(y)), "copysign {bits:08x}");
        }
        let expected = if x.is_nan() { 1.0 } else { x.signum() };
        assert!(same(signum(x), expected), "signum {bits:08x}");
    }
}

#[test]
fn the_sign_of_a_not_a_number_counts_as_clear() {
    for bits in [0x7fc0_0000, 0xffc0_0000, 0x7f80_0001, 0xffff_ffff] {
        let nan = f32::from_bits(bits);
        assert!(same(signum(nan), 1.0));
        assert!(same(copysign(-2.5, nan), 2.5));
        assert!(abs(nan).is_nan() && copysign(nan, -1.0).is_nan());
    }
}

#[test]
fn ties_give_the_second_operand() {
    for (a, b) in [(0.0, -0.0), (-0.0, 0.0), (f32::NAN, 1.0), (1.0, f32::NAN)] {
        assert!(same(max(a, b), b) && same(min(a, b), b));
    }
}

#[test]
fn the_table_has_the_check_values() {
    let expected = [
        (0, 1 << 40),
        (1, 1_082_465_279_992),
        (64, 404_487_723_199),
        (512, 368_845_027),
        (1024, 123_700),
    ];
    for (k, entry) in expected {
        assert_eq!(TABLE[k], entry, "T[{k}]");
    }
}

#[test]
fn starred_readings_of_document_01() {
    assert!(same(exp(0.0), 1.0) && same(exp(-0.0), 1.0));
    // As document 02 puts it: "The listed value at -17 becomes the square of exp(-8.5)."
    assert!(same(exp(-17.0), exp(-8.5) * exp(-8.5)));
    assert!(same(ceil(100.0), 100.0) && same(ceil(100.25), 101.0));
    assert!(same(ceil(-0.5), -0.0));
    assert!(same(narrow(16_777_217.0), 16_777_216.0));
}

#[test]
fn a_span_gives_0_before_its_start_and_1_when_it_has_no_length() {
    assert!(same(interpolation_factor(1.0, 2.0, 0.5, 0.1), 0.0));
    assert!(same(interpolation_factor(1.0, 1.0, 0.5, 0.1), 0.0));
    assert!(same(interpolation_factor(1.0, 1.0, 1.0, 0.1), 1.0));
    assert!(same(interpolation_factor(1.0, 2.0, 2.5, 0.1), 1.0));
}
