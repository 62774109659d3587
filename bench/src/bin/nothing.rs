//! The driver by itself, to be taken off the others.

fn main() {
    bench::drive(|_| (), |_| (), |_, _, _| 0);
}
