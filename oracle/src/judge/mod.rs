//! Who answers for the Rust: the oracle's port or, with the feature `egui`, egui's own text.
//!
//! Then the port is asked the same, each of its answers is held to that of egui's text, and the latter is the one that counts. Whatever the
//! Rust does not know (the checks, the clock, drawers) stands outside.

mod port;
pub use port::{frame as port_frame, Moved, Taken};

#[cfg(feature = "egui")]
mod both;
#[cfg(feature = "egui")]
mod text;
#[cfg(feature = "egui")]
mod transcript;

#[cfg(feature = "egui")]
pub use both::{different, drag, frame, fresh, held, shown, step, wheel};
#[cfg(feature = "egui")]
pub use egui::{marks, Kind, IS_EDITED};
#[cfg(not(feature = "egui"))]
pub use port::{drag, frame, fresh, shown, step, wheel};
#[cfg(feature = "egui")]
pub use transcript::{begin as begin_transcript, end as end_transcript};
