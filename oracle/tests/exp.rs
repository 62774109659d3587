//! exp against the platform's own, and against what document 02 says of it.

use oracle::numbers::*;
use oracle::words::away;

#[test]
fn exp_has_the_check_values() {
    let expected = [
        (-0.5, 0x3f1b_4597),
        (-1.0, 0x3ebc_5ab0),
        (-8.5, 0x3955_5000),
        (-16.0, 0x3380_0000),
        (away(-16.0, 1), 0x33f1_a7ea),
        (-17.0, 0x3331_be39),
        (-80.0, 0x05be_8ca5),
        (away(-80.0, 1), 0x0000_0000),
    ];
    for (x, bits) in expected {
        assert_eq!(exp(x).to_bits(), bits, "exp({x})");
    }
}

#[test]
fn exp_outside_its_domain() {
    assert!(exp(f32::NAN).is_nan() && exp(f32::INFINITY).is_nan());
    assert!(exp(f32::from_bits(1)).is_nan() && exp(1.0).is_nan());
    for x in [away(-80.0, 1), -81.0, -100.0, f32::MIN, f32::NEG_INFINITY] {
        assert_eq!(exp(x).to_bits(), 0, "exp({x})");
    }
}

/// From 0 to -80 through the patterns, and 999 on either side of where the number of halvings changes.
fn arguments() -> impl Iterator<Item = f32> {
    let through = (0..=80f32.to_bits()).step_by(37).map(f32::from_bits);
    let edges = [16f32, 32.0, 64.0].map(f32::to_bits);
    let near = edges.into_iter().flat_map(|bits| bits - 999..bits + 1000);
    let last = 80f32.to_bits() - 999..=80f32.to_bits();
    let near = near.chain(last).map(f32::from_bits);
    through.chain(near).map(|x| -x).chain([0.0])
}

/// How far exp is from the platform's own, as a part of that.
fn part_off(x: f32) -> f64 {
    f64::from(exp(x)) / f64::from(x).exp() - 1.0
}

/// Of the arguments down to the last one: the halvings, and where exp is too small by the largest part, rounded up.
struct Reach {
    last: f32,
    halvings: u32,
    too_small: f64,
    at: f32,
}

impl Reach {
    const fn new(last: f32, halvings: u32, too_small: f64, at: f32) -> Reach {
        Reach {
            last,
            halvings,
            too_small,
            at,
        }
    }

    fn of(x: f32) -> &'static Reach {
        let found = REACHES.iter().find(|reach| reach.last <= x);
        found.expect("an argument down to -80")
    }
}

/// As docs/DIFFERENCES.md has them.
const REACHES: [Reach; 5] = [
    Reach::new(-8.0, 0, 0.000_144_68, -7.873_814),
    Reach::new(-16.0, 0, 0.494_61, -15.968_616),
    Reach::new(-32.0, 1, 0.744_58, -31.937_37),
    Reach::new(-64.0, 2, 0.934_76, -63.857_304),
    Reach::new(-80.0, 3, 0.008_751_2, -79.855_54),
];

/// By how large a part exp is too large at most, and that only down to -8.
const TOO_LARGE: f64 = 0.000_000_072;

fn is_as_stated(x: f32, part: f64) -> bool {
    let reach = Reach::of(x);
    let too_large = if x < -8.0 { 0.0 } else { TOO_LARGE };
    -reach.too_small < part && part < too_large
}

#[test]
fn exp_is_too_small_by_a_stated_part_and_hardly_too_large() {
    for x in arguments() {
        let part = part_off(x);
        assert!(is_as_stated(x, part), "exp({x}) is off by {part}");
    }
}

/// Each factor has 2^-25 of itself from the series' last step, 2^-24 from its product with the entry, 2^-24 as its share of the squares,
/// and a little from the series' end; an entry is cut to whole 2^-24, and T by 49,537 / 768 of 2^-40 at most.
#[test]
fn exp_is_off_by_roundings_and_by_what_the_table_cuts_off() {
    let (rounding, cut) = (1.6e-7, 1.001 / 16_777_216.0);
    for x in arguments() {
        let factors = 1 << Reach::of(x).halvings;
        let factor = (f64::from(x) / f64::from(factors)).exp();
        let least = (factor * (1.0 - rounding) - cut).powi(factors);
        let most = (factor * (1.0 + rounding)).powi(factors);
        let found = f64::from(exp(x));
        assert!(least < found && found < most, "exp({x}) is {found}");
    }
}

#[test]
fn exp_below_minus_16_is_the_square_of_its_half_rounded_once() {
    for x in arguments().filter(|x| *x < -16.0) {
        let half = f64::from(exp(x / 2.0));
        // The product of two f32 is an f64, so that only the narrowing rounds.
        let square = narrow(half * half);
        assert_eq!(exp(x).to_bits(), square.to_bits(), "exp({x})");
    }
}

/// Where exp rises from one f32 to the next below it: just below -16, -32 and -64, and where another entry of the table is taken.
fn may_rise(x: f32) -> bool {
    let halvings = Reach::of(x).halvings;
    let entries = -64.0 * x / (1 << halvings) as f32;
    [-16.0, -32.0, -64.0].contains(&away(x, -1)) || entries.fract() == 0.0
}

/// What docs/DIFFERENCES.md and docs/DECISIONS.md say of every f32 from 0 to -80.
#[test]
#[ignore = "takes 1,117,782,017 arguments: cargo test --release -- --ignored"]
fn every_argument_is_as_stated() {
    let mut rises = [0; REACHES.len()];
    let mut worst = [0.0; REACHES.len()];
    let mut before = 1.0;
    for bits in 0..=80f32.to_bits() {
        let x = -f32::from_bits(bits);
        let place = REACHES.iter().position(|reach| reach.last <= x);
        let place = place.expect("an argument down to -80");
        let part = part_off(x);
        assert!(is_as_stated(x, part), "exp({x}) is off by {part}");
        if -part > worst[place] {
            worst[place] = -part;
            // The last one that is the worst so far is the worst.
            assert!(REACHES[place].at <= x, "exp({x}) is off by {part}");
        }
        if exp(x) > before {
            rises[place] += 1;
            assert!(may_rise(x), "exp({x}) is above what it is before");
        }
        before = exp(x);
    }
    for (reach, worst) in REACHES.iter().zip(worst) {
        assert_eq!(worst, -part_off(reach.at));
        assert!(reach.too_small < 1.0001 * worst, "{worst}");
    }
    assert_eq!(rises, [171, 306, 307, 307, 61]);
}

/// Each call counts once, however often it halves.
#[cfg(feature = "branches")]
#[test]
fn exp_counts_as_one_branch() {
    use oracle::branches::{count_of, Branch, BRANCHES};
    let by_halvings = [
        Branch::ExpByTable,
        Branch::ExpByOneHalving,
        Branch::ExpByTwoHalvings,
        Branch::ExpByThreeHalvings,
    ];
    let last = [-16.0, -32.0, -64.0, -80.0];
    let inside = last.iter().zip(by_halvings).map(|(x, branch)| (*x, branch));
    let beyond = last[..3].iter().zip(&by_halvings[1..]);
    let beyond = beyond.map(|(x, branch)| (away(*x, 1), *branch));
    let below = [away(-80.0, 1), f32::NEG_INFINITY].map(|x| (x, Branch::ExpBelow));
    for (x, branch) in inside.chain(beyond).chain(below) {
        let all = || -> u64 { BRANCHES.iter().map(|(branch, _)| count_of(*branch)).sum() };
        let before = (count_of(branch), all());
        x.stated_exp();
        let after = (count_of(branch), all());
        assert_eq!(after, (before.0 + 1, before.1 + 1), "exp({x})");
    }
}
