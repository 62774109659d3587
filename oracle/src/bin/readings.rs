//! Writes document 01's frames to standard output: its example, then a new press at 50 and one at 5 on a bar from 0 to 10.

use oracle::frame_vectors::{example, Frame};
use std::io::{self, Write};

/// "Bar 0 to 10, handle at least 12, offset 0", with a press at y on the bar.
fn pressed(y: f32) -> Frame {
    example()
        .with(25, 0)
        .with_all([10, 17, 79], 1)
        .with_numbers(13, &[200.0, 10.0])
        .with_number(29, 10.0)
        .with_numbers(32, &[10.0, 12.0])
        .with_number(67, 1.0)
        .with_numbers(80, &[175.0, y])
}

fn main() {
    for frame in [example(), pressed(50.0), pressed(5.0)] {
        io::stdout()
            .write_all(&frame.bytes())
            .expect("a frame is written");
    }
}
