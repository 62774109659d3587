//! The files that are stored for the gate, held to what the generators write.

use std::fs;
use std::path::Path;
use std::process::Command;

use oracle::answers::Answer;
use oracle::clock::run;
use oracle::frame_checks::sweep_line;
use oracle::frame_vectors::{self, Call};
use oracle::scenes::scene_list;
use oracle::{axis_vectors, drawer_vectors, run_vectors, sweep_vectors, table_vectors};

/// That the files of a crate are these records and lines.
fn assert_stored(name: &str, records: Vec<Vec<u8>>, lines: Vec<String>) {
    let folder = Path::new(env!("CARGO_MANIFEST_DIR"))
        .join("../crates")
        .join(name);
    let stored = |file: &str| fs::read(folder.join(file)).expect("a stored file");
    // Not by assert_eq, which would show every byte.
    assert!(stored("stdin") == records.concat(), "{name}/stdin");
    assert!(
        stored("stdout") == lines.concat().into_bytes(),
        "{name}/stdout"
    );
}

fn lines_of(answers: Vec<Answer>) -> Vec<String> {
    answers.into_iter().map(|answer| answer.line).collect()
}

#[test]
fn the_frames_of_the_sweep_are_stored() {
    let list = sweep_vectors::fixed_list();
    let lines = list.iter().map(|part| sweep_line(part)).collect();
    assert_stored("sweep", list, lines);
}

#[test]
fn the_axis_calls_are_stored() {
    let list = axis_vectors::fixed_list();
    let records = list.iter().map(axis_vectors::Call::input_record).collect();
    let lines = list.iter().map(axis_vectors::Call::output_line).collect();
    assert_stored("replay_axis", records, lines);
}

#[test]
fn the_calls_of_the_checks_are_stored() {
    let list = frame_vectors::fixed_list();
    let records = list.iter().map(Call::input_record).collect();
    let lines = list.iter().map(Call::output_line).collect();
    assert_stored("replay_checks", records, lines);
}

#[test]
fn the_runs_and_the_frames_on_a_kept_record_are_stored() {
    let list = run_vectors::fixed_list();
    let records = list.iter().map(run_vectors::Record::input_record).collect();
    let lines = lines_of(run_vectors::answers(&list));
    assert_stored("replay_runs", records, lines);
}

#[test]
fn the_calls_under_tables_are_stored() {
    let list = table_vectors::fixed_list();
    let records = list.iter().map(table_vectors::Record::input_record);
    let lines = lines_of(table_vectors::answers(&list));
    assert_stored("replay_tables", records.collect(), lines);
}

#[test]
fn the_calls_on_a_drawer_are_stored() {
    let list = drawer_vectors::fixed_list();
    let records = list.iter().map(drawer_vectors::Call::input_record);
    let lines = lines_of(drawer_vectors::answers(&list));
    assert_stored("replay_drawers", records.collect(), lines);
}

/// Document 01's frames, and scenes.
#[test]
fn the_frames_are_stored() {
    let readings = Command::new(env!("CARGO_BIN_EXE_readings")).output();
    let mut frames = vec![readings.expect("the program runs").stdout];
    frames.extend(scene_list(2080, 640));
    let bytes = frames.concat();
    let listed = run(&bytes).map(|(_, output)| output.listing_line());
    assert_stored("frames", frames.clone(), listed.collect());
    let full = run(&bytes).map(|(left, output)| left.full_line(&output));
    assert_stored("frames_full", frames, full.collect());
}
