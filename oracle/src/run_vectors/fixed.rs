//! The fixed list.

use super::fixed_clocks::*;
use super::fixed_given::on_given_records;
use super::fixed_inside::*;
use super::fixed_records::*;
use super::fixed_refusals::*;
use super::fixed_resets::*;
use super::fixed_rests::*;
use super::fixed_turns::turns;
use super::hung_target::hung_target;
use super::lists::{list, moving, paced, with_band};
use super::{Call, Record, Run};
use crate::settling_run::MOST_FRAMES;
use crate::tables::{bytes_of, good, refused, t_bytes, LENGTH};

/// Of the tables.
const SEED: u64 = 1;

/// The kinds of tables under which runs are stored.
const TABLES: [&str; 4] = ["zero after the first", "constant", "half", "slower than T"];

/// The fixed runs on states.
pub fn fixed_calls() -> Vec<Call> {
    let groups = [
        refused_before_9,
        limits,
        increments,
        moving_words,
        words_that_do_not_move,
        flings,
        springs,
        others_that_rest,
        targets,
        limits_around_rest,
        restless_runs,
        past_the_last_time,
        first_frames_refused,
        second_frames_refused,
        later_frames_refused,
        remembered_times,
        before_and_behind_12,
        runs_that_follow,
    ];
    groups.iter().flat_map(|group| group()).collect()
}

/// The fixed runs on records: those of states, and others.
pub fn fixed_runs() -> Vec<Run> {
    let mut runs: Vec<Run> = fixed_calls().iter().map(Run::of).collect();
    runs.extend(damaged_flags());
    runs.extend(damaged_and_refused());
    runs.extend(absent_options());
    runs.extend(absent_options_at_every_end());
    runs.extend(not_a_numbers());
    runs.extend(damaged_before_12());
    runs
}

/// The fixed records: all runs by T, then some of them under tables, and by T again; then frames and resets, at last on records that are given.
pub fn fixed_list() -> Vec<Record> {
    let mut list: Vec<Record> = fixed_runs().into_iter().map(Record::Run).collect();
    // Nobody loaded the zeros that are there at first.
    list.extend(that_show_the_table().iter().map(Run::of).map(Record::RunBy));
    let tables = good(SEED);
    for name in TABLES {
        let table = tables.iter().find(|table| table.name == name);
        let entries = &table.expect("a table of that kind").table;
        list.push(Record::Load(bytes_of(entries).to_vec()));
        list.extend(under_tables().into_iter().map(Record::RunBy));
    }
    for bytes in that_do_not_load() {
        list.push(Record::Load(bytes));
        list.push(Record::RunBy(Run::of(&that_show_the_table()[0])));
    }
    list.extend(that_show_the_table().iter().map(Run::of).map(Record::Run));
    list.extend([resets(), steps_of_time(), refusals(), hung_target()].concat());
    list.extend(turns());
    list.extend(on_given_records());
    list
}

/// By their length, too short and too long, and by their entries; each would show if it were in the table.
fn that_do_not_load() -> Vec<Vec<u8>> {
    let entries = refused().into_iter().find(|bad| bad.number == 11);
    let entries = entries.expect("a table with wrong entries").bytes;
    let mut long = t_bytes().to_vec();
    long.resize(LENGTH + 8, 0);
    vec![Vec::new(), entries, long]
}

/// Runs that show which table serves, one before any frame is run, and one of which it is nothing to.
fn that_show_the_table() -> Vec<Call> {
    vec![
        paced(moving(150.0, 700.0), list(), 500),
        paced(moving(150.0, -90.0), with_band(), 500),
        paced(moving(340.0, 200.0), with_band(), 500),
        paced(moving(150.0, 90.0), list(), 0),
        paced(moving(150.0, 0.0), list(), MOST_FRAMES),
    ]
}

/// The same, and runs with the other ends.
fn under_tables() -> Vec<Run> {
    let mut calls = that_show_the_table();
    calls.extend(second_frames_refused());
    calls.extend(later_frames_refused());
    let mut late = past_the_last_time().into_iter();
    calls.extend(late.find(|call| call.answer().refusal == 3));
    calls.extend(runs_that_follow());
    let mut runs: Vec<Run> = calls.iter().map(Run::of).collect();
    runs.extend(damaged_and_refused().into_iter().step_by(5));
    runs.extend(absent_options().into_iter().step_by(4));
    runs
}
