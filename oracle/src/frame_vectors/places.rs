//! Where the words of a frame are; written apart from the checks, so that a slip in either shows.

use std::ops::RangeInclusive;

pub const FLAGS: [usize; 29] = [
    1, 2, 3, 4, 10, 15, 17, 19, 21, 24, 25, 26, 27, 36, 39, 48, 49, 50, 54, 61, 62, 72, 73, 74, 77,
    78, 79, 91, 98,
];

/// Each kind with its last value.
pub const KINDS: [(usize, u32); 5] = [(9, 2), (20, 2), (63, 4), (94, 3), (101, 3)];

/// An option: its flag and the words that the flag governs.
#[derive(Clone)]
pub struct Choice {
    pub flag: usize,
    pub words: RangeInclusive<usize>,
}

const fn choice(flag: usize, last: usize) -> Choice {
    let words = flag + 1..=last;
    Choice { flag, words }
}

pub const OPTIONS: [Choice; 8] = [
    choice(10, 14),
    choice(15, 16),
    choice(17, 18),
    choice(54, 56),
    choice(74, 76),
    choice(79, 81),
    choice(91, 97),
    choice(98, 104),
];

/// The low and the high word of the time.
pub const TIME: [usize; 2] = [52, 53];

/// Sizes that may be +infinity.
pub const MAX_SIZES: [usize; 2] = [5, 6];

/// Points per second: of the scroll delta, and of both targets.
pub const SPEEDS: [usize; 3] = [88, 95, 102];

/// Sizes, lengths, widths, margins and dt.
pub const NOT_NEGATIVE: [usize; 13] = [5, 6, 7, 8, 28, 29, 30, 31, 32, 33, 51, 82, 83];

/// Bar factors, those on opening, hover factors.
pub const FACTORS: [usize; 6] = [66, 67, 68, 69, 70, 71];

pub const DECAY_TIME: usize = 37;
pub const STOP_DISTANCE: usize = 38;

/// The start and the end of each rectangle side, duration and target range.
pub const PAIRS: [(usize, usize); 11] = [
    (11, 13),
    (12, 14),
    (40, 42),
    (41, 43),
    (44, 46),
    (45, 47),
    (89, 90),
    (92, 93),
    (96, 97),
    (99, 100),
    (103, 104),
];

/// The option that governs the word, if one does.
pub fn governing(word: usize) -> Option<Choice> {
    OPTIONS
        .into_iter()
        .find(|option| option.words.contains(&word))
}

/// Every word that is read as binary32: all but flags, kinds and the time.
pub fn numbers() -> Vec<usize> {
    let is_kind = |word: &usize| KINDS.iter().any(|(kind, _)| kind == word);
    let is_other = |word: &usize| FLAGS.contains(word) || TIME.contains(word) || is_kind(word);
    (1..=104).filter(|word| !is_other(word)).collect()
}
