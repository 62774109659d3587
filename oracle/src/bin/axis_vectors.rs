//! Writes axis calls of a host, and the answers that the documents give them; counts the refusals.
//!
//! `axis_vectors INPUT OUTPUT` writes the fixed list, `axis_vectors INPUT OUTPUT SEED COUNT` a random one.

use oracle::answers::tally;
use oracle::axis_vectors::{fixed_list, random_list, Call};
use oracle::command_line::write_list;

fn main() {
    let list = write_list(
        "axis_vectors",
        fixed_list,
        random_list,
        Call::input_record,
        Call::output_line,
    );
    let met = list.iter().map(|call| (call.kind().name(), call.refusal()));
    eprint!("{}", tally(met));
}
