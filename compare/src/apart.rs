//! In which words two answers to a frame or an axis call differ; steps under tables and runs are not looked at.

use std::collections::BTreeMap;

/// The words of a state's record, in order.
const STATE: [(&str, usize); 14] = [
    ("offset", 2),
    ("max_offset", 2),
    ("offset_target x", 6),
    ("offset_target y", 6),
    ("show_scroll", 2),
    ("content_is_too_large", 2),
    ("scroll_bar_interaction", 2),
    ("vel", 2),
    ("scroll_start_offset_from_top_left x", 2),
    ("scroll_start_offset_from_top_left y", 2),
    ("scroll_stuck_to_end", 2),
    ("interact_rect", 5),
    ("bounced_this_momentum", 2),
    ("remembered time", 2),
];

/// The words of the other outputs, in order.
const OUT: [(&str, usize); 8] = [
    ("content_size", 2),
    ("inner_rect", 4),
    ("viewport", 4),
    ("handle x", 5),
    ("handle y", 5),
    ("wheel delta left", 2),
    ("scroll delta left", 2),
    ("repaint", 1),
];

/// The shown offset's words.
const SHOWN: [(&str, usize); 1] = [("shown offset", 2)];

/// The words of an axis call's answer, in order; a drag has the first alone, a step no bounce.
const AXIS: [(&str, usize); 3] = [
    ("an axis' offset", 1),
    ("an axis' velocity", 1),
    ("an axis' flags", 2),
];

/// How often each kind of word differed, by the sign of a zero alone and otherwise.
#[derive(Default)]
pub struct Apart(BTreeMap<&'static str, [u64; 2]>);

impl Apart {
    /// Of a frame's answers: the states' bytes, those of the other outputs, and those of the shown offsets.
    pub fn count_frame(&mut self, states: [&[u8]; 2], outs: [&[u8]; 2], shown: [&[u8]; 2]) {
        self.count_words(&STATE, states);
        self.count_words(&OUT, outs);
        self.count_words(&SHOWN, shown);
    }

    /// Of an axis call's answers.
    pub fn count_axis(&mut self, answers: [&[u8]; 2]) {
        self.count_words(&AXIS, answers);
    }

    fn count_words(&mut self, names: &[(&'static str, usize)], [ours, theirs]: [&[u8]; 2]) {
        let names = names
            .iter()
            .flat_map(|(name, words)| [*name].repeat(*words));
        for ((name, ours), theirs) in names.zip(ours.chunks(4)).zip(theirs.chunks(4)) {
            if ours != theirs {
                let is_other = !(is_zero(ours) && is_zero(theirs));
                self.0.entry(name).or_default()[usize::from(is_other)] += 1;
            }
        }
    }

    pub fn print(&self) {
        for (name, [by_sign, otherwise]) in &self.0 {
            println!("words of {name} that differ: {by_sign} by the sign of a zero, {otherwise} otherwise");
        }
    }
}

/// Whether the word is +0 or -0.
fn is_zero(word: &[u8]) -> bool {
    word == [0, 0, 0, 0] || word == [0, 0, 0, 0x80]
}
