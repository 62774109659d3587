//! The library.

fn main() {
    bench::drive(strakobud::fresh, strakobud::reset, strakobud::frame);
}
