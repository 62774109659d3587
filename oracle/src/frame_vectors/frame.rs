//! A frame under construction, by its word numbers.

use crate::words::in_bytes;

/// The 104 words of a frame; they are numbered from 1.
#[derive(Clone, Copy, Debug, PartialEq)]
pub struct Frame([u32; 104]);

impl Frame {
    /// All words 0, which is no good frame yet.
    pub const ZEROS: Frame = Frame([0; 104]);

    /// The frame of these words.
    pub fn of(words: [u32; 104]) -> Frame {
        Frame(words)
    }

    /// The word of that number.
    pub fn word(&self, number: usize) -> u32 {
        self.0[number - 1]
    }

    /// The same frame with other bits at that word.
    pub fn with(mut self, number: usize, bits: u32) -> Frame {
        self.0[number - 1] = bits;
        self
    }

    /// The same frame with another number at that word.
    pub fn with_number(self, number: usize, x: f32) -> Frame {
        self.with(number, x.to_bits())
    }

    /// The same frame with other numbers from that word on.
    pub fn with_numbers(self, first: usize, numbers: &[f32]) -> Frame {
        let places = (first..).zip(numbers);
        places.fold(self, |frame, (place, x)| frame.with_number(place, *x))
    }

    /// The same frame with these bits at every one of those words.
    pub fn with_all(self, words: impl IntoIterator<Item = usize>, bits: u32) -> Frame {
        let words = words.into_iter();
        words.fold(self, |frame, place| frame.with(place, bits))
    }

    /// The same frame with another time, low word first.
    pub fn with_time(self, bits: u64) -> Frame {
        self.with(52, bits as u32).with(53, (bits >> 32) as u32)
    }

    pub fn bytes(&self) -> Vec<u8> {
        in_bytes(&self.0)
    }
}
