//! What an interaction answers: words 61 and 62 for the background, 72 to 76 and 77 to 81 for the bars.

use crate::context::Any;
use crate::words::Words;
use crate::{Context, Pos2};

#[derive(Clone, Copy, Debug, PartialEq, Eq)]
pub enum CursorIcon {
    Grab,
    Grabbing,
}

#[derive(Clone, Copy, Debug, PartialEq, Eq)]
pub enum Role {
    ScrollBar,
}

pub struct WidgetInfo;

impl WidgetInfo {
    pub fn new(_role: Role) -> WidgetInfo {
        WidgetInfo
    }
}

/// The frame has the responses as they are, whatever was sensed.
#[derive(Clone, Copy, Debug, PartialEq, Eq)]
pub struct Sense;

impl Sense {
    pub const CLICK: Sense = Sense;
    pub const DRAG: Sense = Sense;

    pub fn hover() -> Sense {
        Sense
    }
}

impl std::ops::BitOr for Sense {
    type Output = Sense;

    fn bitor(self, _other: Sense) -> Sense {
        Sense
    }
}

pub struct Response {
    ctx: Context,
    hovered: bool,
    dragged: bool,
    drag_stopped: bool,
    interact_pointer_pos: Option<Pos2>,
}

impl Response {
    pub(crate) fn of_background(ctx: &Context) -> Response {
        Response {
            ctx: ctx.clone(),
            hovered: ctx.0.any(Any::HoveredBackground),
            dragged: ctx.0.words().flag(61),
            drag_stopped: ctx.0.words().flag(62),
            interact_pointer_pos: None,
        }
    }

    pub(crate) fn of_bar(ctx: &Context, d: usize) -> Response {
        let first = 72 + 5 * d;
        Response {
            ctx: ctx.clone(),
            hovered: ctx.0.words().flag(first),
            dragged: ctx.0.words().flag(first + 1),
            drag_stopped: false,
            interact_pointer_pos: ctx.0.words().option(first + 2, Words::point),
        }
    }

    pub fn hovered(&self) -> bool {
        self.hovered
    }

    pub fn dragged(&self) -> bool {
        self.dragged
    }

    pub fn drag_stopped(&self) -> bool {
        self.drag_stopped
    }

    pub fn interact_pointer_pos(&self) -> Option<Pos2> {
        self.ctx.0.in_press.set(self.interact_pointer_pos.is_some());
        self.interact_pointer_pos
    }

    pub fn is_pointer_button_down_on(&self) -> bool {
        self.ctx.0.any(Any::ButtonDown)
    }

    pub fn widget_info(&self, _make: impl Fn() -> WidgetInfo) {}
}
