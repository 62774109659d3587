//! Standard input and output of the programs that take frames.

use std::io::{self, Read, Write};

/// All of standard input.
pub fn read_input() -> Vec<u8> {
    let mut bytes = Vec::new();
    let mut input = io::stdin().lock();
    input.read_to_end(&mut bytes).expect("the frames are read");
    bytes
}

pub fn print(lines: &str) {
    let written = io::stdout().lock().write_all(lines.as_bytes());
    written.expect("the lines are written");
}
