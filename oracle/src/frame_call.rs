//! The frame call of the Rust: the checks around what the judge answers, whatever the frame's time is. What the clock adds is in `clock`.

use crate::frame_checks::frame_refusal;
use crate::frame_state::State;
use crate::records::write_output;
use crate::rectangles::{Pos2, Rect};
use crate::words::from_bytes;

pub use crate::judge::frame as rust_call;

/// The answer of a frame call; on a refusal the state is the one given and the rest is zeros.
#[derive(Clone, Copy, Debug, PartialEq)]
pub struct Output {
    pub refusal: u32,
    pub state: State,
    pub content_size: [f32; 2],
    /// The one of `begin`.
    pub inner_rect: Rect,
    pub viewport: Rect,
    pub handle_rects: [Option<Rect>; 2],
    pub wheel_delta_left: [f32; 2],
    pub scroll_delta_left: [f32; 2],
    pub repaint: bool,
}

/// One frame on a state by value, which no clock is kept beside.
pub fn frame_call(state: State, bytes: &[u8]) -> Output {
    let refusal = match frame_refusal(bytes) {
        0 => state.refusal(),
        refusal => refusal,
    };
    match refusal {
        0 => rust_call(state, bytes),
        refusal => Output::refused(refusal, state),
    }
}

impl Output {
    pub(crate) fn refused(refusal: u32, state: State) -> Output {
        let origin = Pos2 { x: 0.0, y: 0.0 };
        let nowhere = Rect::from_min_max(origin, origin);
        Output {
            refusal,
            state,
            content_size: [0.0; 2],
            inner_rect: nowhere,
            viewport: nowhere,
            handle_rects: [None; 2],
            wheel_delta_left: [0.0; 2],
            scroll_delta_left: [0.0; 2],
            repaint: false,
        }
    }

    /// This answer, or 8 on the state that was given.
    pub(crate) fn unless_8(self, given: State) -> Output {
        if self.is_finite() {
            self
        } else {
            Output::refused(8, given)
        }
    }

    /// Document 01: "A number among the outputs is not finite: 8"; the state's are those of check 6.
    fn is_finite(&self) -> bool {
        let handles = self.handle_rects.iter().flatten();
        let rects = [self.inner_rect, self.viewport];
        let corners = rects.iter().chain(handles).flat_map(corners);
        let pairs = [
            self.content_size,
            self.wheel_delta_left,
            self.scroll_delta_left,
        ];
        let mut numbers = corners.chain(pairs.into_iter().flatten());
        self.state.refusal() == 0 && numbers.all(f32::is_finite)
    }

    /// Document 01's line of the listing.
    pub fn listing_line(&self) -> String {
        format!("{}{}\n", self.refusal, self.state.listed())
    }

    /// The words of the record of the outputs other than refusal and state.
    pub fn record(&self) -> [u32; 25] {
        let mut bytes = [0; 100];
        write_output(self, &mut bytes);
        from_bytes(&bytes).try_into().expect("25 words")
    }
}

fn corners(rect: &Rect) -> [f32; 4] {
    [rect.min.x, rect.min.y, rect.max.x, rect.max.y]
}
