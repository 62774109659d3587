//! A frame by egui's own `show_viewport`, which runs its `begin` and its `end`.

use std::panic::{AssertUnwindSafe, catch_unwind, resume_unwind};
use std::sync::Once;

use crate::bits::{of_option, of_pair, of_rect};
use crate::containers::scroll_area::bridge::WORDS;
use crate::containers::scroll_area::{
    DragScroll, ScrollArea, ScrollAreaOutput, ScrollBarVisibility, ScrollSource, State,
};
use crate::context::Any;
use crate::words::Words;
use crate::{Context, CursorIcon, Id, Rect, Ui};

/// The words that a frame puts out besides the state.
pub const OUTPUTS: usize = 25;

/// What `f32::clamp` says where it panics.
const CLAMP: &str = "min > max, or either was NaN";

/// The words of the state after a frame that passed the checks, then those of the other outputs; none where the clamp of a press panics.
pub fn frame(state: &[u32; WORDS], frame: &[u32; 104]) -> Option<[u32; WORDS + OUTPUTS]> {
    static HUSHED: Once = Once::new();
    HUSHED.call_once(hush);
    let ctx = Context::of(frame);
    match catch_unwind(AssertUnwindSafe(|| shown(&ctx, State::of(state)))) {
        Ok(words) => Some(words),
        Err(panic) if is_of_clamp(panic.downcast_ref()) && ctx.0.in_press.get() => None,
        Err(panic) => {
            let words: Option<&String> = panic.downcast_ref();
            eprintln!("egui's text panicked, and not at a press: {words:?}");
            resume_unwind(panic)
        }
    }
}

fn is_of_clamp(words: Option<&String>) -> bool {
    words.is_some_and(|words| words.starts_with(CLAMP))
}

/// A panic of the clamp is an answer, so nothing is printed about it.
fn hush() {
    let before = std::panic::take_hook();
    std::panic::set_hook(Box::new(move |info| {
        if !is_of_clamp(info.payload().downcast_ref()) {
            before(info);
        }
    }));
}

fn shown(ctx: &Context, given: State) -> [u32; WORDS + OUTPUTS] {
    // A fresh state is one that egui has not stored yet.
    if given.words() != State::default().words() {
        given.store(ctx, Id::Area);
    }
    let output = area(ctx).show_viewport(&mut Ui::around(ctx), |ui, viewport| {
        ask_for_scrolling(ui.ctx());
        viewport
    });
    check_left(ctx, &output);
    let mut words = Vec::with_capacity(WORDS + OUTPUTS);
    words.extend(output.state.words());
    words.extend(outputs(ctx, &output));
    words.try_into().expect("the words of both")
}

/// The settings, words 1 to 26, by the area's own methods.
fn area(ctx: &Context) -> ScrollArea {
    let words = ctx.0.words();
    let mut area = ScrollArea::new(words.flags(1))
        .auto_shrink(words.flags(3))
        .max_width(words.number(5))
        .max_height(words.number(6))
        .min_scrolled_width(words.number(7))
        .min_scrolled_height(words.number(8))
        .scroll_bar_visibility(visibility(words))
        .scroll_source(scroll_source(words))
        .wheel_scroll_multiplier(words.pair(22))
        .stick_to_right(words.flag(24))
        .stick_to_bottom(words.flag(25))
        .animated(words.flag(26));
    if let Some(rect) = words.option(10, Words::rect) {
        area = area.scroll_bar_rect(rect);
    }
    if let Some(x) = words.option(15, Words::number) {
        area = area.horizontal_scroll_offset(x);
    }
    if let Some(y) = words.option(17, Words::number) {
        area = area.vertical_scroll_offset(y);
    }
    with_cursors(ctx, area)
}

fn visibility(words: Words) -> ScrollBarVisibility {
    let visibilities = [
        ScrollBarVisibility::AlwaysHidden,
        ScrollBarVisibility::VisibleWhenNeeded,
        ScrollBarVisibility::AlwaysVisible,
    ];
    visibilities[words.word(9) as usize]
}

fn scroll_source(words: Words) -> ScrollSource {
    let drags = [DragScroll::Never, DragScroll::OnTouch, DragScroll::Always];
    ScrollSource {
        scroll_bar: words.flag(19),
        drag: drags[words.word(20) as usize],
        mouse_wheel: words.flag(21),
    }
}

fn with_cursors(ctx: &Context, mut area: ScrollArea) -> ScrollArea {
    if ctx.0.any(Any::HoverCursor) {
        area = area.on_hover_cursor(CursorIcon::Grab);
    }
    if ctx.0.any(Any::DragCursor) {
        area = area.on_drag_cursor(CursorIcon::Grabbing);
    }
    area
}

/// The content's scroll targets and scroll delta: words 86 to 104.
fn ask_for_scrolling(ctx: &Context) {
    let words = ctx.0.words();
    ctx.pass_state_mut(|pass_state| {
        assert_eq!(
            pass_state.scroll_target,
            [None, None],
            "those further out are put aside"
        );
        pass_state.scroll_target = [91, 98].map(|flag| words.option(flag, Words::target));
        pass_state.scroll_delta = (words.pair(86), words.animation(88));
    });
}

/// The state answered is the one stored, and the targets further out are back.
fn check_left(ctx: &Context, output: &ScrollAreaOutput<Rect>) {
    let stored = State::load(ctx, Id::Area).expect("the state is stored");
    assert_eq!(stored.words(), output.state.words());
    let targets = [0, 1].map(|d| ctx.0.target_further_out(d));
    assert_eq!(ctx.0.pass_state.borrow().scroll_target, targets);
}

fn outputs(ctx: &Context, output: &ScrollAreaOutput<Rect>) -> [u32; OUTPUTS] {
    let host = &ctx.0;
    let mut words = Vec::with_capacity(OUTPUTS);
    words.extend(of_pair(output.content_size));
    words.extend(of_rect(output.inner_rect));
    words.extend(of_rect(output.inner));
    for handle in &host.handle_rects {
        words.extend(of_option(handle.get()));
    }
    words.extend(of_pair(host.input.borrow().smooth_scroll_delta));
    words.extend(of_pair(host.pass_state.borrow().scroll_delta.0));
    words.push(u32::from(host.wants_repaint.get()));
    words.try_into().expect("25 words")
}
