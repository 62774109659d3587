//! The oracle: the documents written out in plain Rust, to compare answers with.

pub mod answers;
pub mod axis_calls;
pub mod axis_vectors;
pub mod branches;
pub mod clock;
pub mod command_line;
pub mod drawer;
pub mod drawer_vectors;
pub mod frame;
pub mod frame_begin;
pub mod frame_call;
pub mod frame_checks;
pub mod frame_end;
pub mod frame_end_bars;
pub mod frame_end_targets;
pub mod frame_end_wheel;
pub mod frame_state;
pub mod frame_vectors;
pub mod host_calls;
pub mod judge;
pub mod number_vectors;
pub mod numbers;
pub mod random;
pub mod records;
pub mod run_vectors;
pub mod scenes;
pub mod scroll_physics;
pub mod settling_run;
pub mod streams;
pub mod sweep_vectors;
pub mod table_vectors;
pub mod tables;
pub mod wheel_law;
pub mod words;

pub use emath::rectangles;
