//! Writes loads of tables and calls under them, and the answers that the documents give them; counts the refusals.
//!
//! `table_vectors INPUT OUTPUT` writes the fixed list, `table_vectors INPUT OUTPUT SEED COUNT` a random one.

use oracle::command_line::write_answers;
use oracle::table_vectors::{answers, fixed_list, random_list, Record};

fn main() {
    write_answers(
        "table_vectors",
        fixed_list,
        random_list,
        Record::input_record,
        Record::name,
        answers,
    );
}
