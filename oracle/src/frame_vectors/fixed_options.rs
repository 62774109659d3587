//! Words inside an option: garbage passes while the option is off, and the option's own flag decides.

use super::edges::beyond;
use super::good::{only, without};
use super::places::{governing, Choice, OPTIONS, PAIRS, SPEEDS};
use super::{Frame, List};
use crate::words::{INF, NAN};

/// For checks 2 to 5 in turn, a word outside options and the bits that make it bad.
const ELSEWHERE: [(usize, u32); 4] = [
    (19, 2),
    (28, NAN.to_bits()),
    (66, 2.0f32.to_bits()),
    (38, (-1.0f32).to_bits()),
];

/// Each option alone, and each option missing.
pub fn one_at_a_time(list: &mut List) {
    for option in OPTIONS {
        list.frame(only(&option));
        list.frame(without(&option));
    }
}

/// Every word with bits that no number and no kind may have; the option's own flag decides alone.
pub fn garbage(list: &mut List) {
    let bits = [NAN, beyond()].map(f32::to_bits);
    for option in OPTIONS {
        for word in option.words.clone() {
            list.words(without(&option), word, &bits);
            list.words(only(&option), word, &bits[..1]);
        }
    }
}

/// Numbers that checks 4 and 5 would turn back, not check 3.
pub fn hidden_ranges(list: &mut List) {
    for (start, end) in PAIRS {
        if let Some(option) = governing(end) {
            let frame = without(&option).with_number(start, 7.0);
            list.numbers(frame, end, &[6.0]);
        }
    }
    for speed in SPEEDS {
        if let Some(option) = governing(speed) {
            list.numbers(without(&option), speed, &[0.0, -0.0, -1.0, -INF]);
        }
    }
}

fn filled(frame: Frame, option: &Choice) -> Frame {
    frame.with_all(option.words.clone(), u32::MAX)
}

/// An option filled with garbage: off, it hides nothing else; a wrong flag is refused first.
pub fn filled_with_garbage(list: &mut List) {
    for (index, option) in OPTIONS.iter().enumerate() {
        let hidden = filled(without(option), option);
        list.frame(hidden);
        list.words(hidden, option.flag, &[1, 2]);
        let (word, bits) = ELSEWHERE[index % ELSEWHERE.len()];
        list.frame(hidden.with(word, bits));
    }
}
