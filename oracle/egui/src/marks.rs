//! Which sides of egui's text were executed, where it is marked.

use std::cell::RefCell;

/// The places, in the order of the text: a condition has two sides, a block or an arm one.
pub static SITES: &[&str] = include!(concat!(env!("OUT_DIR"), "/sites.rs"));

thread_local! {
    static COUNTS: RefCell<Vec<[u64; 2]>> = RefCell::new(vec![[0; 2]; SITES.len()]);
}

/// A block or an arm is executed.
pub fn hit(site: usize) {
    COUNTS.with_borrow_mut(|counts| counts[site][1] += 1);
}

/// A condition, or an operand of one, is what it is.
pub fn cond(site: usize, value: bool) -> bool {
    COUNTS.with_borrow_mut(|counts| counts[site][usize::from(value)] += 1);
    value
}

/// An option that a `let` looks into holds something or not.
pub fn is_some<O: Looked>(site: usize, option: O) -> O {
    cond(site, option.holds());
    option
}

/// An option, or one that is lent.
pub trait Looked {
    fn holds(&self) -> bool;
}

impl<T> Looked for Option<T> {
    fn holds(&self) -> bool {
        self.is_some()
    }
}

impl<T> Looked for &Option<T> {
    fn holds(&self) -> bool {
        self.is_some()
    }
}

impl<T> Looked for &mut Option<T> {
    fn holds(&self) -> bool {
        self.is_some()
    }
}

/// How often each place was false, and true or executed.
pub fn counts() -> Vec<[u64; 2]> {
    COUNTS.with_borrow(Vec::clone)
}
