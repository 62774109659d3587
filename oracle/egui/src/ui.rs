//! The ui around the area, and the one that holds its content.

use crate::style::{Spacing, Style, Visuals};
use crate::words::Words;
use crate::{Context, CursorIcon, Id, IdSalt, InputState, Rect, Response, Sense, Vec2};
use epaint::{Color32, Margin, Shape};

#[derive(Clone, Copy, Debug, PartialEq, Eq)]
pub enum UiKind {
    CentralPanel,
    ScrollArea,
}

pub struct UiStackInfo(UiKind);

impl UiStackInfo {
    pub fn new(kind: UiKind) -> UiStackInfo {
        UiStackInfo(kind)
    }
}

pub struct UiStack(Vec<UiStackNode>);

pub struct UiStackNode(UiKind);

impl UiStack {
    pub fn iter(&self) -> impl Iterator<Item = &UiStackNode> {
        self.0.iter()
    }

    pub fn bg_color(&self) -> Color32 {
        Color32
    }
}

impl UiStackNode {
    pub fn kind(&self) -> Option<UiKind> {
        Some(self.0)
    }
}

/// Where the content would go is the host's matter: the frame has where it went.
#[derive(Default)]
pub struct UiBuilder {
    info: Option<UiStackInfo>,
}

impl UiBuilder {
    pub fn new() -> UiBuilder {
        UiBuilder::default()
    }

    pub fn ui_stack_info(self, info: UiStackInfo) -> UiBuilder {
        UiBuilder { info: Some(info) }
    }

    pub fn max_rect(self, _rect: Rect) -> UiBuilder {
        self
    }
}

pub struct Painter<'a>(&'a Context);

impl Painter<'_> {
    /// Of each bar its background, then its handle.
    pub fn add(&self, shape: Shape) {
        let Shape::RectFilled(rect) = shape else {
            return; // a fade
        };
        let host = &self.0.0;
        let (d, painted) = host.painted_bar.get().expect("a bar was interacted with");
        match painted {
            0 => {}
            1 => host.handle_rects[d].set(Some(rect)),
            _ => panic!("more than two rectangles of one bar"),
        }
        host.painted_bar.set(Some((d, painted + 1)));
    }
}

pub struct Ui {
    ctx: Context,
    style: Style,
    stack: UiStack,
    clip_rect: Rect,
    holds_content: bool,
}

impl Ui {
    /// The one around the area: words 40 to 50.
    pub(crate) fn around(ctx: &Context) -> Ui {
        let inner = match ctx.0.words().flag(50) {
            true => UiKind::ScrollArea,
            false => UiKind::CentralPanel,
        };
        Ui {
            ctx: ctx.clone(),
            style: Style::of(&ctx.0),
            stack: UiStack(vec![UiStackNode(UiKind::CentralPanel), UiStackNode(inner)]),
            clip_rect: ctx.0.words().rect(44),
            holds_content: false,
        }
    }

    pub fn new_child(&mut self, builder: UiBuilder) -> Ui {
        assert!(!self.holds_content);
        let UiStackInfo(kind) = builder.info.expect("a child says what it is");
        Ui {
            ctx: self.ctx.clone(),
            style: Style::of(&self.ctx.0),
            stack: UiStack(vec![UiStackNode(kind)]),
            clip_rect: self.clip_rect,
            holds_content: true,
        }
    }

    pub fn ctx(&self) -> &Context {
        &self.ctx
    }

    pub fn style(&self) -> &Style {
        &self.style
    }

    pub fn spacing(&self) -> &Spacing {
        &self.style.spacing
    }

    pub fn visuals(&self) -> &Visuals {
        &self.style.visuals
    }

    pub fn stack(&self) -> &UiStack {
        &self.stack
    }

    pub fn painter(&self) -> Painter<'_> {
        Painter(&self.ctx)
    }

    pub fn input<R>(&self, reader: impl FnOnce(&InputState) -> R) -> R {
        self.ctx.input(reader)
    }

    pub fn input_mut<R>(&self, writer: impl FnOnce(&mut InputState) -> R) -> R {
        writer(&mut self.ctx.0.input.borrow_mut())
    }

    pub fn request_repaint(&self) {
        self.ctx.request_repaint();
    }

    pub fn pixels_per_point(&self) -> f32 {
        1.0
    }

    pub fn make_persistent_id(&self, _salt: IdSalt) -> Id {
        Id::Area
    }

    pub fn set_cursor_icon(&self, _icon: CursorIcon) {}

    pub fn advance_cursor_after_rect(&mut self, _rect: Rect) {}

    pub fn is_enabled(&self) -> bool {
        self.ctx.0.words().flag(48)
    }

    pub fn available_rect_before_wrap(&self) -> Rect {
        assert!(!self.holds_content);
        self.ctx.0.words().rect(40)
    }

    pub fn clip_rect(&self) -> Rect {
        self.clip_rect
    }

    pub fn set_clip_rect(&mut self, rect: Rect) {
        assert!(self.holds_content);
        self.clip_rect = rect;
    }

    /// The content's size: words 82 and 83.
    pub fn min_size(&self) -> Vec2 {
        assert!(self.holds_content);
        self.ctx.0.words().pair(82)
    }

    /// The content's place: words 84 and 85. Of the ui around the area it is for fades alone.
    pub fn min_rect(&self) -> Rect {
        let words = self.ctx.0.words();
        Rect::from_min_size(words.point(84), words.pair(82))
    }

    /// Document 01: "A rectangle holds the pointer if its intersection with the clip does".
    pub fn rect_contains_pointer(&self, rect: Rect) -> bool {
        let pointer = self.ctx.0.words().option(54, Words::point);
        pointer.is_some_and(|point| self.clip_rect.intersect(rect).contains(point))
    }

    /// Handles are put out "also where the Rust finds the bar invisible".
    pub fn is_rect_visible(&self, _rect: Rect) -> bool {
        self.ctx.0.in_press.set(false);
        true
    }

    pub fn interact(&self, _rect: Rect, id: Id, _sense: Sense) -> Response {
        match id {
            Id::Background => Response::of_background(&self.ctx),
            Id::Bar(d) => {
                self.ctx.0.painted_bar.set(Some((d, 0)));
                Response::of_bar(&self.ctx, d)
            }
            _ => panic!("an interaction with {id:?}"),
        }
    }
}

/// For `show_rows`, which is built and never run.
impl Ui {
    pub fn set_height(&mut self, _height: f32) {
        unreachable!()
    }

    pub fn max_rect(&self) -> Rect {
        unreachable!()
    }

    pub fn skip_ahead_auto_ids(&mut self, _count: usize) {
        unreachable!()
    }

    pub fn scope_builder<R>(
        &mut self,
        _builder: UiBuilder,
        _add: impl FnOnce(&mut Ui) -> R,
    ) -> InnerResponse<R> {
        unreachable!()
    }
}

pub struct InnerResponse<R> {
    pub inner: R,
}

/// The margin around the content is the host's matter: the frame has the content's size and place.
pub struct Frame;

impl Frame {
    pub const NONE: Frame = Frame;

    pub fn inner_margin(self, _margin: Margin) -> Frame {
        self
    }

    pub fn show<R>(self, ui: &mut Ui, add: impl FnOnce(&mut Ui) -> R) -> InnerResponse<R> {
        InnerResponse { inner: add(ui) }
    }
}
