//! The library under table T, lent by the host.

fn main() {
    let mut table = [0; 8200];
    strakobud::table_t(&mut table);
    bench::drive(strakobud::fresh, strakobud::reset, |state, frame, out| {
        strakobud::frame_by(state, frame, &table, out)
    });
}
