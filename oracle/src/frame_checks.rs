//! Checks 1 to 5 of a frame's bytes, line by line as their table has them; words are numbered from 1.

use std::slice::Chunks;

use crate::branches::{met, Branch};

/// The length of a frame in bytes.
pub const LENGTH: usize = 416;

/// The words of a frame.
pub const WORDS: usize = 104;

/// The largest magnitude that a number may have.
const LIMIT: f32 = 1_048_576.0;

/// The latest time, 2^32.
pub const LATEST: f64 = 4_294_967_296.0;

/// The lowest number of 1 to 5 that applies to these bytes, or 0.
pub fn frame_refusal(bytes: &[u8]) -> u32 {
    if bytes.len() != LENGTH {
        return 1;
    }
    kept_after(bytes, WORDS)
}

/// Document 02, of that many first words of a whole frame: "the lowest of 2 to 5 that these alone show, or 0".
pub fn kept_after(frame: &[u8], count: usize) -> u32 {
    // What comes after them is cut off, so that no check can look at it.
    let words = &frame[..4 * count];
    // Each number is tried on all of them before the next.
    if !(flags_hold(words) && kinds_hold(words)) {
        return 2;
    }
    if !(numbers_hold(words) && unbounded_numbers_hold(words) && time_holds(words)) {
        return 3;
    }
    if !(ends_hold(words) && signs_hold(words) && factors_hold(words)) {
        return 4;
    }
    if !(kinetics_hold(words) && speeds_hold(words)) {
        return 5;
    }
    0
}

/// The first word after which the number kept is the frame's refusal; 0 where that is none of 2 to 5.
pub fn bad_word(bytes: &[u8]) -> u32 {
    let refusal = frame_refusal(bytes);
    if refusal < 2 {
        return 0;
    }
    let kept: Vec<u32> = (1..=WORDS).map(|count| kept_after(bytes, count)).collect();
    let mut shown = kept.iter().filter(|number| **number != 0);
    met_at_first(*shown.next().expect("a number is shown"), refusal);
    let before = kept.iter().take_while(|number| **number != refusal);
    before.count() as u32 + 1
}

/// Counts which number was shown first, beside the one that is left in the end.
fn met_at_first(first: u32, refusal: u32) {
    met(match (first, refusal) {
        (2, 2) => Branch::Kept2,
        (3, 3) => Branch::Kept3,
        (4, 4) => Branch::Kept4,
        (5, 5) => Branch::Kept5,
        (3, 2) => Branch::Lowered3To2,
        (4, 2) => Branch::Lowered4To2,
        (4, 3) => Branch::Lowered4To3,
        (5, 2) => Branch::Lowered5To2,
        (5, 3) => Branch::Lowered5To3,
        (5, 4) => Branch::Lowered5To4,
        _ => panic!("{first} is kept first, {refusal} in the end"),
    });
}

/// Frames one after another; a shorter last part is one too.
pub fn parts(bytes: &[u8]) -> Chunks<'_, u8> {
    bytes.chunks(LENGTH)
}

/// The line of the program `sweep`: the number kept after each word of a whole frame, and 1 for any other part.
pub fn sweep_line(part: &[u8]) -> String {
    if part.len() != LENGTH {
        return "1\n".to_owned();
    }
    let kept = (1..=WORDS).map(|count| kept_after(part, count));
    let digits: String = kept.map(|number| number.to_string()).collect();
    format!("{digits}\n")
}

/// An entry of the table: it is tried once its word is there, of several the latest.
trait Entry: Copy {
    fn word(self) -> usize;
}

impl Entry for usize {
    fn word(self) -> usize {
        self
    }
}

/// A kind with its last value, or an end with its start, which comes before it.
impl<T: Copy> Entry for (usize, T) {
    fn word(self) -> usize {
        self.0
    }
}

/// The word of that number.
pub(crate) fn word(frame: &[u8], number: usize) -> u32 {
    let end = 4 * number;
    u32::from_le_bytes(frame[end - 4..end].try_into().expect("four bytes"))
}

/// The word of that number, read as binary32.
pub(crate) fn float(frame: &[u8], number: usize) -> f32 {
    f32::from_bits(word(frame, number))
}

/// Whether the word of that number is among these.
fn has(words: &[u8], number: usize) -> bool {
    4 * number <= words.len()
}

/// Whether the option whose flag is that word is there; a flag above 1 shows 2, and its words are not heeded.
fn is_on(words: &[u8], flag: usize) -> bool {
    has(words, flag) && word(words, flag) == 1
}

/// Whether a test holds of the entries outside options, and of those inside the options that are there, as far as the words go.
fn holds<T: Entry>(
    words: &[u8],
    always: &[T],
    optional: &[(usize, &[T])],
    test: impl Fn(T) -> bool,
) -> bool {
    let passes = |entry: &T| !has(words, entry.word()) || test(*entry);
    let all = |entries: &[T]| entries.iter().all(passes);
    all(always) && (optional.iter()).all(|(flag, inside)| !is_on(words, *flag) || all(inside))
}

/// Check 2: "flag is 0 or 1".
fn flags_hold(words: &[u8]) -> bool {
    let flags = [
        1, 2, 3, 4, 10, 15, 17, 19, 21, 24, 25, 26, 27, 36, 39, 48, 49, 50, 54, 61, 62, 72, 73, 74,
        77, 78, 79, 91, 98,
    ];
    holds(words, &flags, &[], |flag| word(words, flag) <= 1)
}

/// Check 2: "kind", each with its last value.
fn kinds_hold(words: &[u8]) -> bool {
    let always = [(9, 2), (20, 2), (63, 4)];
    let optional: [(usize, &[(usize, u32)]); 2] = [(91, &[(94, 3)]), (98, &[(101, 3)])];
    holds(words, &always, &optional, |(kind, last)| {
        word(words, kind) <= last
    })
}

/// Not-a-number and both infinities are outside.
fn is_within_limit(x: f32) -> bool {
    (-LIMIT..=LIMIT).contains(&x)
}

/// Check 3: "finite, magnitude at most 1,048,576".
fn numbers_hold(words: &[u8]) -> bool {
    let always = [
        7, 8, 22, 23, 28, 29, 30, 31, 32, 33, 34, 35, 37, 38, 40, 41, 42, 43, 44, 45, 46, 47, 51,
        57, 58, 59, 60, 64, 65, 66, 67, 68, 69, 70, 71, 82, 83, 84, 85, 86, 87, 89, 90,
    ];
    let optional: [(usize, &[usize]); 8] = [
        (10, &[11, 12, 13, 14]),
        (15, &[16]),
        (17, &[18]),
        (54, &[55, 56]),
        (74, &[75, 76]),
        (79, &[80, 81]),
        (91, &[92, 93, 96, 97]),
        (98, &[99, 100, 103, 104]),
    ];
    holds(words, &always, &optional, |n| {
        is_within_limit(float(words, n))
    })
}

/// Check 3: "the same or +infinity".
fn unbounded_numbers_hold(words: &[u8]) -> bool {
    let optional: [(usize, &[usize]); 2] = [(91, &[95]), (98, &[102])];
    holds(words, &[5, 6, 88], &optional, |n| {
        let x = float(words, n);
        is_within_limit(x) || x == f32::INFINITY
    })
}

/// Words 52 and 53, the low one first.
pub(crate) fn time(frame: &[u8]) -> f64 {
    let (low, high) = (word(frame, 52), word(frame, 53));
    f64::from_bits(u64::from(high) << 32 | u64::from(low))
}

/// Check 3: "time", by its later word; -0 compares equal to 0, and not-a-number is outside.
fn time_holds(words: &[u8]) -> bool {
    holds(words, &[53], &[], |_| (0.0..=LATEST).contains(&time(words)))
}

/// Check 4: "end not below start", each end with its start.
fn ends_hold(words: &[u8]) -> bool {
    let always = [(42, 40), (43, 41), (46, 44), (47, 45), (90, 89)];
    let optional: [(usize, &[(usize, usize)]); 3] = [
        (10, &[(13, 11), (14, 12)]),
        (91, &[(93, 92), (97, 96)]),
        (98, &[(100, 99), (104, 103)]),
    ];
    holds(words, &always, &optional, |(end, start)| {
        float(words, start) <= float(words, end)
    })
}

/// Check 4: "not negative"; -0 compares equal to 0.
fn signs_hold(words: &[u8]) -> bool {
    let numbers = [5, 6, 7, 8, 28, 29, 30, 31, 32, 33, 51, 82, 83];
    holds(words, &numbers, &[], |n| 0.0 <= float(words, n))
}

/// Check 4: "from 0 to 1".
fn factors_hold(words: &[u8]) -> bool {
    let factors = [66, 67, 68, 69, 70, 71];
    holds(words, &factors, &[], |n| {
        (0.0..=1.0).contains(&float(words, n))
    })
}

/// Check 5: "37 from 1/1,024 to 1,024; 38 not negative".
fn kinetics_hold(words: &[u8]) -> bool {
    let in_range = |n| (1.0 / 1024.0..=1024.0).contains(&float(words, n));
    holds(words, &[37], &[], in_range) && holds(words, &[38], &[], |n| 0.0 <= float(words, n))
}

/// Check 5: "88, 95 if 91, 102 if 98 above 0"; neither zero is above 0.
fn speeds_hold(words: &[u8]) -> bool {
    let optional: [(usize, &[usize]); 2] = [(91, &[95]), (98, &[102])];
    holds(words, &[88], &optional, |n| 0.0 < float(words, n))
}
