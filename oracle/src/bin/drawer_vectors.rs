//! Writes calls on one lent drawer and words that somebody else writes in it, and the answers that the documents give them; counts the
//! refusals.
//!
//! `drawer_vectors INPUT OUTPUT` writes the fixed list, `drawer_vectors INPUT OUTPUT SEED COUNT` a random one.

use oracle::command_line::write_answers;
use oracle::drawer_vectors::{answers, fixed_list, random_list, Call};

fn main() {
    write_answers(
        "drawer_vectors",
        fixed_list,
        random_list,
        Call::input_record,
        Call::name,
        answers,
    );
}
