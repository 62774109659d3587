//! The 37 words of a state. This stands inside scroll_area.rs, as a state's fields are private; the order of the words is written here and, for
//! the port's state, in the oracle's records, so that a slip in one of them shows.

use super::{ScrollingToTarget, State};
use crate::bits::{of_double, of_flags, of_number, of_option, of_pair};
use crate::words::Words;

pub const WORDS: usize = 37;

impl State {
    pub(crate) fn of(state: &[u32; WORDS]) -> State {
        let words = Words(state);
        let target = |words: &Words, first| ScrollingToTarget {
            animation_time_span: (words.double(first), words.double(first + 2)),
            target_offset: words.number(first + 4),
        };
        State {
            offset: words.pair(1),
            max_offset: words.pair(3),
            offset_target: [5, 11].map(|flag| words.option(flag, target)),
            show_scroll: words.flags(17),
            content_is_too_large: words.flags(19),
            scroll_bar_interaction: words.flags(21),
            vel: words.pair(23),
            scroll_start_offset_from_top_left: [25, 27].map(|flag| words.option(flag, Words::number)),
            scroll_stuck_to_end: words.flags(29),
            interact_rect: words.option(31, Words::rect),
            bounced_this_momentum: words.flags(36),
        }
    }

    pub(crate) fn words(&self) -> [u32; WORDS] {
        let mut words = Vec::with_capacity(WORDS);
        words.extend(of_pair(self.offset));
        words.extend(of_pair(self.max_offset));
        words.extend(self.offset_target.map(of_target).as_flattened());
        words.extend(of_flags(self.show_scroll));
        words.extend(of_flags(self.content_is_too_large));
        words.extend(of_flags(self.scroll_bar_interaction));
        words.extend(of_pair(self.vel));
        words.extend(self.scroll_start_offset_from_top_left.map(of_press).as_flattened());
        words.extend(of_flags(self.scroll_stuck_to_end));
        words.extend(of_option(self.interact_rect));
        words.extend(of_flags(self.bounced_this_momentum));
        words.try_into().expect("37 words")
    }
}

/// A flag, then the words of the target or as many zeros.
fn of_target(target: Option<ScrollingToTarget>) -> [u32; 6] {
    target.map_or([0; 6], |target| {
        let (start, end) = target.animation_time_span;
        let ([start, start_high], [end, end_high]) = (of_double(start), of_double(end));
        [1, start, start_high, end, end_high, of_number(target.target_offset)]
    })
}

fn of_press(press: Option<f32>) -> [u32; 2] {
    press.map_or([0; 2], |press| [1, of_number(press)])
}
