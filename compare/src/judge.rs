//! Who judged: the oracle's port or, with the feature `egui`, egui's own text.

#[cfg(feature = "egui")]
use oracle::judge::{different, held, Kind};

use crate::tally::Tally;

pub const IS_EGUI: bool = cfg!(feature = "egui");

#[cfg(feature = "egui")]
pub fn begin_transcript(path: &str) {
    written(oracle::judge::begin_transcript(path));
}

/// Ends the program where the transcript cannot be written.
#[cfg(feature = "egui")]
fn written(transcript: std::io::Result<()>) {
    if let Err(why) = transcript {
        eprintln!("the transcript: {why}");
        std::process::exit(2)
    }
}

#[cfg(not(feature = "egui"))]
pub fn begin_transcript(_path: &str) {
    eprintln!("a transcript is of egui's text");
    std::process::exit(2)
}

/// Prints who judged, as the last line; answers whether nothing is wrong with the judge.
#[cfg(not(feature = "egui"))]
pub fn print(tally: &Tally) -> bool {
    println!("{}; judged by the oracle's port", tally.counts());
    true
}

#[cfg(feature = "egui")]
pub fn print(tally: &Tally) -> bool {
    written(oracle::judge::end_transcript());
    #[cfg(feature = "marked")]
    let are_sides_whole = crate::sides::print();
    #[cfg(not(feature = "marked"))]
    let are_sides_whole = true;
    print_held();
    println!("{}; judged by {}", tally.counts(), name());
    different() == 0 && are_sides_whole
}

/// Prints how often egui's text was asked, each time the port too, and how often the port differed.
#[cfg(feature = "egui")]
fn print_held() {
    println!("questions to egui's text");
    for kind in Kind::ALL {
        println!("  {:>12} {kind:?}", held(kind));
    }
    let all: u64 = Kind::ALL.map(held).iter().sum();
    println!(
        "{all} answers of egui's text, {} of the port's different",
        different()
    );
}

#[cfg(feature = "egui")]
fn name() -> &'static str {
    if oracle::judge::IS_EDITED {
        "egui's text with an edit"
    } else if cfg!(feature = "ties") {
        "egui's own text, with max, min and signum as Rust's library has them"
    } else {
        "egui's own text"
    }
}
