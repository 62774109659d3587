//! Writes calls of the number operations, and the answers that the documents give them.
//!
//! `number_vectors INPUT OUTPUT` writes the fixed list, `number_vectors INPUT OUTPUT SEED COUNT` a random one.

use oracle::command_line::write_list;
use oracle::number_vectors::{fixed_list, random_list, Call};

fn main() {
    write_list(
        "number_vectors",
        fixed_list,
        random_list,
        Call::input_record,
        Call::output_line,
    );
}
