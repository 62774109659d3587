//! Document 01's section "Numbers", under the names of the crate emath for which no file is at hand.

pub mod named;
pub mod numbers;
pub mod rectangles;
pub mod table;
pub mod vectors;

pub use named::{interpolation_factor, lerp, remap, remap_clamp, GuiRounding, NumExt, Stated};
pub use numbers::{ease_in_ease_out, Rangef};
pub use rectangles::{pos2, Align, Pos2, Rect};
pub use vectors::{vec2, Vec2, Vec2b};
