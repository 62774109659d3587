//! Writes frames for the sweep over checks 2 to 5, and the numbers that it keeps; counts the refusals.
//!
//! `sweep_vectors INPUT OUTPUT` writes the fixed list, `sweep_vectors INPUT OUTPUT SEED COUNT` a random one.

use oracle::answers::tally;
use oracle::command_line::write_list;
use oracle::frame_checks::{frame_refusal, sweep_line};
use oracle::sweep_vectors::{fixed_list, random_list};

fn main() {
    let list = write_list(
        "sweep_vectors",
        fixed_list,
        random_list,
        Vec::clone,
        |part| sweep_line(part),
    );
    let met = list.iter().map(|part| ("frame", frame_refusal(part)));
    eprint!("{}", tally(met));
}
