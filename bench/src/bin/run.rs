//! The library's settling run.

fn main() {
    bench::drive(strakobud::fresh, strakobud::reset, |state, frame, _| {
        bench::run(|run, used| strakobud::settle(state, frame, run, used))
    });
}
