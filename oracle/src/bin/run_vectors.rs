//! Writes settling runs and the loads of their tables, and frames and resets on a record that is kept, and the answers that the documents
//! give them; counts the refusals.
//!
//! `run_vectors INPUT OUTPUT` writes the fixed list, `run_vectors INPUT OUTPUT SEED COUNT` a random one.

use oracle::command_line::write_answers;
use oracle::run_vectors::{answers, fixed_list, random_list, Record};

fn main() {
    write_answers(
        "run_vectors",
        fixed_list,
        random_list,
        Record::input_record,
        Record::name,
        answers,
    );
}
