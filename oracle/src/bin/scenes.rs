//! Writes frames of scenes to standard output, one list on one state; the last frame is cut short.
//!
//! `scenes SEED COUNT` writes that many.

use std::io::{self, Write};
use std::{env, process};

use oracle::scenes::scene_list;

fn main() {
    let arguments: Vec<String> = env::args().skip(1).collect();
    let Some((seed, count)) = parse(&arguments) else {
        eprintln!("usage: scenes SEED COUNT");
        process::exit(2)
    };
    let bytes = scene_list(seed, count).concat();
    let written = io::stdout().lock().write_all(&bytes);
    written.expect("the frames are written");
}

fn parse(arguments: &[String]) -> Option<(u64, usize)> {
    let [seed, count] = arguments else {
        return None;
    };
    Some((seed.parse().ok()?, count.parse().ok()?))
}
