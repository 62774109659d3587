//! Check 2: every flag and every kind.

use super::good::{bare, bare_with_garbage, example, full, only};
use super::places::{governing, FLAGS, KINDS};
use super::List;

/// The frames from which the others are made, and document 01's example.
pub fn good_frames(list: &mut List) {
    for frame in [bare(), full(), example(), bare_with_garbage()] {
        list.frame(frame);
    }
}

pub fn flags(list: &mut List) {
    for flag in FLAGS {
        for frame in [bare(), full()] {
            list.words(frame, flag, &[0, 1, 2, u32::MAX]);
        }
        // Its lowest byte alone would do.
        list.words(full(), flag, &[0x0000_0100]);
    }
}

pub fn kinds(list: &mut List) {
    for (kind, last) in KINDS {
        let values: Vec<u32> = (0..=last + 1).chain([0x100, u32::MAX]).collect();
        list.words(full(), kind, &values);
        // With every other option off the kind is checked all the same.
        let frame = governing(kind).map_or(bare(), |option| only(&option));
        list.words(frame, kind, &[0, last, last + 1]);
    }
}
