//! egui 0.37.0's own scroll_area.rs and scroll_physics.rs over the few names of egui that they use.
//!
//! The two files are read when this crate is built (build/main.rs), and nothing here is egui's text. Whatever they ask a `Ui`, a `Context` or a
//! `Response` is answered from the words of document 01's frame; whatever they tell one is kept for the outputs. What document 01 leaves out
//! (colours, cursors, fades, a scroll target of an area further out) is answered one way in some frames and the other way in others, by
//! `Host::any`: an output that depended on it would differ.

mod axis;
mod bits;
mod context;
mod frame;
mod id;
mod input;
pub mod marks;
pub mod pass_state;
mod questions;
mod response;
pub mod style;
mod ui;
mod words;

/// egui's own text.
#[allow(
    dead_code,
    unused_imports,
    unused_parens,
    unused_variables,
    clippy::all
)]
pub mod containers {
    include!(concat!(env!("OUT_DIR"), "/modules.rs"));
}

pub use containers::IS_EDITED;
pub use questions::{Kind, answer};

// The names that egui's text asks its own crate for.
pub use context::Context;
pub use emath::{
    self, NumExt, Pos2, Rangef, Rect, Stated, Vec2, Vec2b, lerp, pos2, remap, remap_clamp,
};
pub use epaint;
pub use id::{AsIdSalt, Id, IdSalt};
pub use input::{InputState, MouseWheelSource};
pub use response::{CursorIcon, Response, Role, Sense, WidgetInfo};
pub use ui::{Frame, Ui, UiBuilder, UiKind, UiStackInfo};
