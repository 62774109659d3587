//! Check 3: every number at its limits, and the time.

use super::edges::{around_the_limits, beyond, AROUND_INFINITY, LATEST};
use super::good::{bare, full};
use super::places::{governing, numbers, MAX_SIZES, SPEEDS};
use super::List;

/// Where the number passes check 3 and is refused by a later one, the answer still tells.
pub fn limits(list: &mut List) {
    for word in numbers() {
        list.numbers(full(), word, &around_the_limits());
    }
}

pub fn up_to_infinity(list: &mut List) {
    for word in MAX_SIZES.into_iter().chain(SPEEDS) {
        list.numbers(full(), word, &AROUND_INFINITY);
    }
}

/// Numbers outside options are checked also with every option off.
pub fn outside_options(list: &mut List) {
    let outside = numbers()
        .into_iter()
        .filter(|word| governing(*word).is_none());
    for word in outside {
        list.numbers(bare(), word, &[beyond()]);
    }
}

const SIGN: u64 = 1 << 63;

/// Times on both sides of 0 and of 2^32, and what is not finite.
const TIMES: [u64; 17] = [
    0,
    SIGN,
    1,
    SIGN | 1,
    LATEST - 1,
    LATEST,
    LATEST + 1,
    SIGN | LATEST,
    0x3ff0_0000_0000_0000,
    0xbff0_0000_0000_0000,
    0x7fef_ffff_ffff_ffff,
    0x7ff0_0000_0000_0000,
    0xfff0_0000_0000_0000,
    0x7ff8_0000_0000_0000,
    0xfff8_0000_0000_0000,
    0x7ff0_0000_0000_0001,
    u64::MAX,
];

/// Times that change sides where a half is taken for the whole, or the two are exchanged.
const HALVES: [u64; 10] = [
    0x0000_0000_bff0_0000,
    0x0000_0000_41f0_0001,
    0x0000_0000_7ff8_0000,
    0x0000_0000_7fc0_0000,
    0x0000_0000_ffff_ffff,
    0x4000_0000_8000_0000,
    0x41ef_ffff_ffff_ffff,
    0x41f0_0001_0000_0000,
    0x41f0_0000_8000_0000,
    0x8000_0000_8000_0000,
];

pub fn times(list: &mut List) {
    for bits in TIMES.into_iter().chain(HALVES) {
        list.frame(full().with_time(bits));
    }
    for bits in [LATEST, LATEST + 1, SIGN, SIGN | 1] {
        list.frame(bare().with_time(bits));
    }
}
