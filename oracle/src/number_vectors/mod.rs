//! Calls of the number operations, and the answers that the documents give them.

mod answers;
mod fixed;
mod fixed_plain;
mod fixed_rectangles;
mod fixed_rounding;
mod fixed_spans;
mod fixed_unusual;
mod random;

use crate::words::{in_bytes, in_hex};

pub use fixed::fixed_list;
pub use random::random_list;

/// The calls in the order of their numbers, from 1 on, each with the words its operands take.
pub const CALLS: [(&str, usize); 23] = [
    ("abs", 1),
    ("copysign", 2),
    ("signum", 1),
    ("max", 2),
    ("min", 2),
    ("powi2", 1),
    ("flag_as_number", 1),
    ("clamp", 3),
    ("range_contains", 3),
    ("ceil", 1),
    ("narrow", 2),
    ("widen", 1),
    ("lerp", 3),
    ("remap", 5),
    ("remap_clamp", 5),
    ("ease_in_ease_out", 1),
    ("interpolation_factor", 7),
    ("rect_from_min_size", 4),
    ("rect_size", 4),
    ("rect_intersect", 8),
    ("rect_contains", 6),
    ("align_factor", 1),
    ("exp", 1),
];

/// One call: its number, and its operands followed by zeros.
#[derive(PartialEq)]
pub struct Call {
    number: usize,
    words: [u32; 8],
}

impl Call {
    fn new(name: &str, operands: &[u32]) -> Call {
        let known = CALLS.iter().position(|call| call.0 == name);
        let index = known.expect("a known call");
        assert_eq!(operands.len(), CALLS[index].1, "operands of {name}");
        let mut words = [0; 8];
        words[..operands.len()].copy_from_slice(operands);
        let number = index + 1;
        Call { number, words }
    }

    /// The call's number, from 1 on.
    pub fn number(&self) -> usize {
        self.number
    }

    /// The record that asks: the number and eight words, 36 bytes.
    pub fn input_record(&self) -> Vec<u8> {
        let mut words = vec![self.number as u32];
        words.extend(self.words);
        in_bytes(&words)
    }

    /// The line that answers: the name, the operands used, and the answer.
    pub fn output_line(&self) -> String {
        let (name, used) = CALLS[self.number - 1];
        let operands = in_hex(&self.words[..used]);
        let answer = in_hex(&answers::answer(name, &self.words));
        format!("{name}{operands} ={answer}\n")
    }
}

/// The two words of an f64, high word first.
fn split(x: f64) -> Vec<u32> {
    let bits = x.to_bits();
    vec![(bits >> 32) as u32, bits as u32]
}

/// The f64 of two words, high word first.
fn join(words: &[u32]) -> f64 {
    f64::from_bits(u64::from(words[0]) << 32 | u64::from(words[1]))
}

/// A list of calls under construction.
struct List(Vec<Call>);

impl List {
    /// Adds a call, once.
    fn words(&mut self, name: &str, operands: &[u32]) {
        let call = Call::new(name, operands);
        if !self.0.contains(&call) {
            self.0.push(call);
        }
    }

    fn floats(&mut self, name: &str, operands: &[f32]) {
        let words: Vec<u32> = operands.iter().map(|x| x.to_bits()).collect();
        self.words(name, &words);
    }

    fn wide(&mut self, x: f64) {
        self.words("narrow", &split(x));
    }

    fn span(&mut self, start: f64, end: f64, time: f64, dt: f32) {
        let words = [split(start), split(end), split(time), vec![dt.to_bits()]];
        self.words("interpolation_factor", &words.concat());
    }
}
