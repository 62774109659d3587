//! The program `sweep`.

use std::fs::{self, File};
use std::path::Path;
use std::process::{Command, Output};

use oracle::frame_vectors::full;

/// What the program does with these bytes on standard input.
fn ran(name: &str, input: &[u8], arguments: &[&str]) -> Output {
    let path = Path::new(env!("CARGO_TARGET_TMPDIR")).join(name);
    fs::write(&path, input).expect("the file is written");
    let input = File::open(path).expect("the frames are there");
    let mut program = Command::new(env!("CARGO_BIN_EXE_sweep"));
    let output = program.args(arguments).stdin(input).output();
    output.expect("the program runs")
}

/// The lines for these bytes.
fn lines(name: &str, input: &[u8]) -> String {
    let output = ran(name, input, &[]);
    assert!(output.status.success() && output.stderr.is_empty());
    String::from_utf8(output.stdout).expect("digits")
}

#[test]
fn a_frame_prints_104_digits_and_a_shorter_last_part_1() {
    let reversed = full().with_number(44, 201.0).bytes();
    let (none, four) = ("0".repeat(104), "0".repeat(45) + &"4".repeat(59));
    let frames = [full().bytes(), reversed, full().bytes()].concat();
    let whole = format!("{none}\n{four}\n{none}\n");
    assert_eq!(lines("whole", &frames), whole);
    for length in [1, 4, 412, 415] {
        let longer = [&frames[..], &frames[..length]].concat();
        assert_eq!(lines("longer", &longer), format!("{whole}1\n"));
        assert_eq!(lines("short", &frames[..length]), "1\n");
    }
}

#[test]
fn nothing_prints_nothing() {
    assert_eq!(lines("nothing", &[]), "");
}

#[test]
fn an_argument_is_an_error() {
    let output = ran("argument", &full().bytes(), &["full"]);
    assert!(!output.status.success() && !output.stderr.is_empty());
    assert!(output.stdout.is_empty());
}
