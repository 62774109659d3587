//! How the answers of a list are counted.

use oracle::answers::tally;

#[test]
fn every_number_that_is_met_is_shown_with_its_count() {
    let met = [("run", 18), ("load", 0), ("run", 3), ("run", 18)];
    let lines = tally(met.into_iter());
    assert_eq!(lines, "load 0: 1\nrun 3: 1, 18: 2\n");
}
