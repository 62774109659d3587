//! Runs frames from standard input, one after another from a fresh state, and prints a line each.
//!
//! `frames [TABLE]` prints document 01's listing, `frames full [TABLE]` every output; a table that is refused prints its number alone.

use std::{env, fs, process};

use oracle::clock::{run, Remembering};
use oracle::frame_call::Output;
use oracle::streams::{print, read_input};
use oracle::tables::{kept, load, under, Table};

/// What is printed of the state that a frame left, and of its answer.
type Line = fn(&Remembering, &Output) -> String;

fn main() {
    let arguments: Vec<String> = env::args().skip(1).collect();
    let listed: Line = |_, output| output.listing_line();
    let full: Line = Remembering::full_line;
    let (line, file) = match &arguments[..] {
        [] => (listed, None),
        [word] if word == "full" => (full, None),
        [file] => (listed, Some(file)),
        [word, file] if word == "full" => (full, Some(file)),
        _ => fail("usage: frames [full] [TABLE]", 2),
    };
    match file.map(|file| table(file)).transpose() {
        Ok(table) => print(&listing(table, line)),
        Err(refusal) => print(&format!("{refusal}\n")),
    }
}

fn fail(message: &str, status: i32) -> ! {
    eprintln!("{message}");
    process::exit(status)
}

/// The table in that file, or its refusal.
fn table(file: &str) -> Result<&'static Table, u32> {
    let bytes = fs::read(file).unwrap_or_else(|error| fail(&format!("{file}: {error}"), 1));
    load(&bytes).map(kept)
}

/// The lines of the frames on standard input.
fn listing(table: Option<&'static Table>, line: Line) -> String {
    let bytes = read_input();
    let lines = || {
        run(&bytes)
            .map(|(left, output)| line(&left, &output))
            .collect()
    };
    under(table, lines)
}
