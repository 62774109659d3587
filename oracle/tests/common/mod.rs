//! What the tests of the lists share.

/// No record stands in the list twice.
pub fn assert_no_record_repeats(mut records: Vec<Vec<u8>>) {
    records.sort();
    for pair in records.windows(2) {
        assert_ne!(pair[0], pair[1]);
    }
}
