//! The program `frames` with a table's file.

use std::fs::{self, File};
use std::path::{Path, PathBuf};
use std::process::{Command, Output};

use oracle::clock::run;
use oracle::scenes::fling_list;
use oracle::tables::{bytes_of, good, kept, refused, t_bytes, under, Good, Refused};

/// Where cargo lets tests write.
const FOLDER: &str = env!("CARGO_TARGET_TMPDIR");

/// A file with these bytes.
fn file(name: &str, bytes: &[u8]) -> PathBuf {
    let path = Path::new(FOLDER).join(name);
    fs::write(&path, bytes).expect("the file is written");
    path
}

/// What the program does with that table's file and these frames.
fn ran(table: &Path, frames: &Path) -> Output {
    let input = File::open(frames).expect("the frames are there");
    let mut program = Command::new(env!("CARGO_BIN_EXE_frames"));
    let output = program.arg(table).stdin(input).output();
    output.expect("the program runs")
}

fn listing(frames: &[u8]) -> String {
    run(frames)
        .map(|(_, output)| output.listing_line())
        .collect()
}

#[test]
fn the_listing_is_the_tables() {
    let bytes = fling_list(1, 200).concat();
    let frames = file("frames", &bytes);
    let by_t = ran(&file("t", &t_bytes()), &frames);
    assert_eq!(by_t.stdout, listing(&bytes).into_bytes());
    for Good { name, table } in good(1).into_iter().skip(1) {
        let found = ran(&file("table", &bytes_of(&table)), &frames);
        let expected = under(kept(table), || listing(&bytes));
        assert!(found.status.success() && found.stderr.is_empty(), "{name}");
        assert_eq!(found.stdout, expected.into_bytes(), "{name}");
        assert_ne!(found.stdout, by_t.stdout, "{name}");
    }
}

#[test]
fn a_refused_table_prints_its_number_alone() {
    let frames = file("few_frames", &fling_list(2, 3).concat());
    for Refused { why, bytes, number } in refused() {
        let found = ran(&file("refused", &bytes), &frames);
        assert_eq!(found.stdout, format!("{number}\n").into_bytes(), "{why}");
    }
}

#[test]
fn a_file_that_cannot_be_read_is_an_error() {
    let frames = file("other_frames", &fling_list(3, 3).concat());
    for table in [&Path::new(FOLDER).join("no such file"), Path::new(FOLDER)] {
        let found = ran(table, &frames);
        assert!(!found.status.success() && !found.stderr.is_empty());
        assert!(found.stdout.is_empty());
    }
}
