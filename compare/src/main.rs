//! Runs the library and the oracle on the same bytes, in one process, and compares every byte left.
//!
//! `compare SEED FRAMES STATES CALLS UNDER RUNS DRAWERS`: frames and resets of scenes from fresh states, frames on arbitrary states, axis calls and,
//! that often too, bad words and resets of arbitrary records; then, each that often, frames of both kinds and steps under tables and with T
//! lent, and a tenth as many loads; then settling runs, each by T, with T lent and under tables; then calls on drawers that nobody else writes,
//! and as many on others. It fails where the two sides differ, where an answer of the library's wheel breaks the law of which turns are taken,
//! where its drawer answers otherwise than by what it holds, where the frames on states leave out a branch of the clock, where the wheel calls
//! or the turns in frames leave out a ground on which a turn is taken or left, where the runs leave out an end or a ground that a run can
//! have, where the bad words leave out a number that is kept first or one that lowers it, and where the drawers leave out a ground of 13 or a
//! way that a call can go.
//!
//! The oracle answers for the Rust by its port or, with the feature `egui`, by egui's own text, and then it fails too where the port differs
//! from that. What stands beside the Rust has no part then: bad words, resets of arbitrary records, loads, T lent and drawers. With the feature
//! `marked` it shows which sides of egui's text were executed, and fails where one was not that can be; `--transcript FILE` ahead of the
//! numbers writes down what egui's text was asked and answered.
//!
//! The remembered time and the frames refused with 12 are left out of what the Rust is compared on, as `frames` says: they are compared with
//! the oracle's model of the clock.

mod apart;
mod bad_words;
mod calls;
mod drawer_lists;
mod drawers;
mod ends;
mod frames;
mod guarded;
mod judge;
mod parts;
mod resets;
mod runs;
#[cfg(feature = "marked")]
mod sides;
mod small_drawers;
mod t_lent;
mod tables;
mod tally;
mod wanted;
mod wheel;

use std::process;

use tables::Pool;
use tally::{has_every_branch_of_bad_words, has_every_branch_of_clock, Tally};
use tally::{
    has_every_branch_of_drawers, has_every_branch_of_turns, has_every_branch_of_wheel_calls,
};
use wanted::Wanted;

fn main() {
    let wanted = Wanted::of_command_line();
    if let Some(path) = &wanted.transcript {
        judge::begin_transcript(path);
    }
    let mut tally = Tally::default();
    let pool = Pool::new(&mut tally, wanted.seed);
    of_the_rust(&mut tally, &pool, &wanted);
    of_runs(&mut tally, &pool, &wanted);
    if !judge::IS_EGUI {
        beside_the_rust(&mut tally, &pool, &wanted);
    }
    tally.print();
    let is_whole = is_rust_whole(&tally, &wanted) && (judge::IS_EGUI || is_rest_whole(&wanted));
    let is_judge_good = judge::print(&tally);
    let is_good = tally.different == 0 && is_whole && is_judge_good;
    process::exit(i32::from(!is_good));
}

/// What the Rust answers: frames and axis calls, by T and under tables.
fn of_the_rust(tally: &mut Tally, pool: &Pool, wanted: &Wanted) {
    let Wanted { seed, under, .. } = *wanted;
    frames::from_fresh_states(tally, None, seed, wanted.frames);
    frames::from_arbitrary_states(tally, None, seed, wanted.states);
    calls::axis_calls(tally, seed, wanted.calls);
    frames::from_fresh_states(tally, Some(pool), seed, under);
    frames::from_arbitrary_states(tally, Some(pool), seed, under);
    calls::steps_under(tally, pool, seed, under);
}

/// Runs, whose frames the Rust answers.
fn of_runs(tally: &mut Tally, pool: &Pool, wanted: &Wanted) {
    let Wanted { seed, runs, .. } = *wanted;
    runs::by_t(tally, &pool.t, seed, runs);
    runs::under_tables(tally, pool, seed, runs);
}

/// What it does not know.
fn beside_the_rust(tally: &mut Tally, pool: &Pool, wanted: &Wanted) {
    let Wanted { seed, under, .. } = *wanted;
    bad_words::of_frames(tally, seed, wanted.calls);
    resets::of_records(tally, seed, wanted.calls);
    tables::loads(tally, seed, under / 10);
    t_lent::frames(tally, &pool.t, seed, under);
    t_lent::steps(tally, &pool.t, seed, under);
    drawer_lists::of_all(tally, seed, wanted.drawers);
}

/// Whether every ground, end and branch was met that should be; says which is missing.
fn is_rust_whole(tally: &Tally, wanted: &Wanted) -> bool {
    let are_runs_whole = wanted.runs == 0 || tally.has_every_end_of_runs();
    let is_clock_whole = wanted.states == 0 || has_every_branch_of_clock();
    let are_wheel_calls_whole = wanted.calls == 0 || has_every_branch_of_wheel_calls();
    let are_turns_whole = wanted.states == 0 || has_every_branch_of_turns();
    are_runs_whole && is_clock_whole && are_wheel_calls_whole && are_turns_whole
}

fn is_rest_whole(wanted: &Wanted) -> bool {
    let are_bad_words_whole = wanted.calls == 0 || has_every_branch_of_bad_words();
    let are_drawers_whole = wanted.drawers == 0 || has_every_branch_of_drawers();
    are_bad_words_whole && are_drawers_whole
}
