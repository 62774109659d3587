//! Takes frames from standard input, one after another, and prints for each the number kept after each of its words.
//!
//! `sweep` prints 104 digits for a whole frame, and 1 for a shorter last part.

use std::{env, process};

use oracle::frame_checks::{parts, sweep_line};
use oracle::streams::{print, read_input};

fn main() {
    if env::args().len() > 1 {
        eprintln!("usage: sweep");
        process::exit(2)
    }
    let lines: String = parts(&read_input()).map(sweep_line).collect();
    print(&lines);
}
