//! Which sides of egui's text were executed: a condition has two, a block or an arm one.

use oracle::judge::marks::{counts, SITES};

/// Sides that nothing can execute: the file, the line, the kind, which side, and why.
const OUT_OF_REACH: [(&str, &str, bool, &str); 9] = [
    ("scroll_area.rs:866", "condition", false, LITERAL),
    ("scroll_area.rs:869", "block", true, LITERAL),
    ("scroll_area.rs:871", "block", true, LITERAL),
    ("scroll_area.rs:872", "condition", false, LITERAL),
    ("scroll_area.rs:872", "condition", true, LITERAL),
    ("scroll_area.rs:872", "block", true, LITERAL),
    ("scroll_area.rs:1582", "condition", false, VISIBLE),
    ("scroll_physics.rs:328", "condition", true, CONSTANT),
    ("scroll_physics.rs:328", "block", true, CONSTANT),
];

const LITERAL: &str = "the other arm of an `if true`";
const VISIBLE: &str = "document 01 puts a handle out where the bar is invisible, too";
const CONSTANT: &str = "the time constant is RUBBER_BAND_TIME, 0.1, at its only call";

/// A side of a place in the text.
struct Side {
    /// The file and the line, the kind, and the words of a condition.
    site: &'static str,
    /// Whether a condition holds; a block or an arm has this side alone.
    holds: bool,
    count: u64,
}

impl Side {
    fn kind(&self) -> &'static str {
        self.site.split(' ').nth(1).expect("a kind")
    }

    fn reason(&self) -> Option<&'static str> {
        let place = self.site.split(' ').next();
        let mut reasons = OUT_OF_REACH.iter();
        let found = reasons.find(|(at, kind, holds, _)| {
            place == Some(at) && self.kind() == *kind && self.holds == *holds
        });
        found.map(|reason| reason.3)
    }

    /// Whether it was executed just where it can be.
    fn is_good(&self) -> bool {
        (self.count > 0) == self.reason().is_none()
    }

    fn print(&self) {
        let holds = match (self.kind(), self.holds) {
            ("condition", true) => ", true",
            ("condition", false) => ", false",
            _ => "",
        };
        let why = match (self.count, self.reason()) {
            (0, Some(reason)) => format!(": {reason}"),
            (0, None) => ": NOT EXECUTED".to_owned(),
            (_, Some(_)) => ": EXECUTED, though out of reach".to_owned(),
            (_, None) => String::new(),
        };
        println!("  {:>12} {}{holds}{why}", self.count, self.site.trim_end());
    }
}

fn sides() -> Vec<Side> {
    let sites = SITES.iter().zip(counts());
    let sides = sites.flat_map(|(site, counts)| {
        let side = |holds: bool| Side {
            site,
            holds,
            count: counts[usize::from(holds)],
        };
        [side(false), side(true)]
    });
    let has_side = |side: &Side| side.holds || side.kind() == "condition";
    sides.filter(has_side).collect()
}

/// Prints them; answers whether those that were not executed are just those that cannot be.
pub fn print() -> bool {
    println!("sides of egui's text, as it executed them");
    let sides = sides();
    sides.iter().for_each(Side::print);
    let executed = sides.iter().filter(|side| side.count > 0).count();
    println!("{executed} of {} sides executed", sides.len());
    sides.iter().all(Side::is_good)
}
