//! The Rust under the documents' stand-ins, on the same records.

use oracle::host_calls::{frame, fresh, reset};

fn main() {
    bench::drive(fresh, reset, frame);
}
