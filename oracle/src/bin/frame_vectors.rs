//! Writes frames and states for checks 1 to 6 and 12, and the answers that the documents give them; counts the refusals.
//!
//! `frame_vectors INPUT OUTPUT` writes the fixed list, `frame_vectors INPUT OUTPUT SEED COUNT` a random one.

use oracle::answers::tally;
use oracle::command_line::write_list;
use oracle::frame_vectors::{fixed_list, random_list, Call};

fn main() {
    let list = write_list(
        "frame_vectors",
        fixed_list,
        random_list,
        Call::input_record,
        Call::output_line,
    );
    let met = list.iter().map(|call| ("frame", call.refusal()));
    eprint!("{}", tally(met));
}
