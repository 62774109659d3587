//! The numbers on both sides of each limit.

use crate::words::{away, INF, LARGEST, NAN, NEGATIVE_NAN, SMALLEST};

pub const LIMIT: f32 = 1_048_576.0;
pub const SHORTEST_DECAY: f32 = 1.0 / 1024.0;
pub const LONGEST_DECAY: f32 = 1024.0;

/// The not-a-number whose bits are next to +infinity.
pub const NEAREST_NAN: f32 = f32::from_bits(0x7f80_0001);

/// The bits of 2^32 as binary64.
pub const LATEST: u64 = 0x41f0_0000_0000_0000;

/// Just beyond the limit.
pub fn beyond() -> f32 {
    away(LIMIT, 1)
}

/// Both limits, one step beyond each, and what is not finite.
pub fn around_the_limits() -> [f32; 7] {
    [LIMIT, -LIMIT, beyond(), -beyond(), INF, -INF, NAN]
}

/// What a word that may be +infinity is tried with besides.
pub const AROUND_INFINITY: [f32; 4] = [LARGEST, -LARGEST, NEAREST_NAN, NEGATIVE_NAN];

/// Around zero, for what may not be negative.
pub const AROUND_ZERO: [f32; 5] = [0.0, -0.0, SMALLEST, -SMALLEST, -1.0];
