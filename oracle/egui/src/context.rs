//! The context of a frame: what the host knows, and what it is told.

use std::cell::{Cell, RefCell};
use std::rc::Rc;

use crate::containers::scroll_area::State;
use crate::pass_state::{PassState, ScrollTarget};
use crate::words::Words;
use crate::{Id, InputState, Rect, Vec2};

/// What document 01 leaves out.
#[derive(Clone, Copy)]
pub enum Any {
    TargetFurtherOut(usize),
    DraggedElsewhere,
    HoveredArea,
    ForegroundColor,
    Fade,
    ButtonDown,
    HoveredBackground,
    HoverCursor,
    DragCursor,
}

impl Any {
    /// Which bit of the frame's hash decides it.
    fn bit(self) -> usize {
        match self {
            Any::TargetFurtherOut(d) => d,
            Any::DraggedElsewhere => 2,
            Any::HoveredArea => 3,
            Any::ForegroundColor => 4,
            Any::Fade => 5,
            Any::ButtonDown => 6,
            Any::HoveredBackground => 7,
            Any::HoverCursor => 8,
            Any::DragCursor => 9,
        }
    }
}

pub struct Host {
    words: [u32; 104],
    pub input: RefCell<InputState>,
    pub pass_state: RefCell<PassState>,
    data: RefCell<IdTypeMap<State>>,
    pub wants_repaint: Cell<bool>,
    pub handle_rects: [Cell<Option<Rect>>; 2],
    /// How often each axis' bar factor was asked for.
    factors_asked: [Cell<usize>; 2],
    /// The bar that was interacted with last, and how many rectangles were painted since.
    pub painted_bar: Cell<Option<(usize, usize)>>,
    /// Whether a press was handed out, and neither the input nor whether its bar is visible was asked for since.
    pub in_press: Cell<bool>,
    hash: u64,
}

impl Host {
    pub fn words(&self) -> Words<'_> {
        Words(&self.words)
    }

    /// Decides what document 01 leaves out: any way, but one way for one frame.
    pub fn any(&self, left_out: Any) -> bool {
        self.hash >> left_out.bit() & 1 == 1
    }

    /// The scroll target for an area further out, if there is one in this frame.
    pub fn target_further_out(&self, d: usize) -> Option<ScrollTarget> {
        self.any(Any::TargetFurtherOut(d))
            .then(ScrollTarget::further_out)
    }
}

/// A hash of the words: the high bits of a word's product are brought down.
fn hash(words: &[u32; 104]) -> u64 {
    words.iter().fold(0xcbf2_9ce4_8422_2325, |hash: u64, word| {
        (hash ^ u64::from(*word))
            .wrapping_mul(0x0000_0100_0000_01b3)
            .rotate_left(29)
    })
}

#[derive(Clone)]
pub struct Context(pub Rc<Host>);

impl Context {
    /// Of a frame that passed the checks.
    pub(crate) fn of(frame: &[u32; 104]) -> Context {
        let words = Words(frame);
        let host = Host {
            words: *frame,
            input: RefCell::new(InputState::of(words)),
            pass_state: RefCell::new(PassState {
                scroll_target: [None, None],
                scroll_delta: (Vec2::ZERO, words.animation(88)),
            }),
            data: Default::default(),
            wants_repaint: Cell::new(false),
            handle_rects: Default::default(),
            factors_asked: Default::default(),
            painted_bar: Cell::new(None),
            in_press: Cell::new(false),
            hash: hash(frame),
        };
        let targets = [0, 1].map(|d| host.target_further_out(d));
        host.pass_state.borrow_mut().scroll_target = targets;
        Context(Rc::new(host))
    }

    pub fn input<R>(&self, reader: impl FnOnce(&InputState) -> R) -> R {
        self.0.in_press.set(false);
        reader(&self.0.input.borrow())
    }

    pub fn data_mut<R>(&self, writer: impl FnOnce(&mut IdTypeMap<State>) -> R) -> R {
        writer(&mut self.0.data.borrow_mut())
    }

    pub fn pass_state_mut<R>(&self, writer: impl FnOnce(&mut PassState) -> R) -> R {
        writer(&mut self.0.pass_state.borrow_mut())
    }

    pub fn request_repaint(&self) {
        self.0.wants_repaint.set(true);
    }

    pub fn check_for_id_clash(&self, _id: Id, _rect: Rect, _what: &str) {}

    pub fn dragged_id(&self) -> Option<Id> {
        self.0.any(Any::DraggedElsewhere).then_some(Id::Background)
    }

    /// A bar's factor in `begin`, on opening in `end`, and of a hovered bar: words 66 to 71.
    pub fn animate_bool_responsive(&self, id: Id, value: bool) -> f32 {
        let words = self.0.words();
        match id {
            Id::ShownBar(d) => {
                match self.0.factors_asked[d].replace(self.0.factors_asked[d].get() + 1) {
                    0 => words.number(66 + d),
                    1 if value => words.number(68 + d),
                    before => panic!("bar factor {d} asked for with {value} after {before} times"),
                }
            }
            Id::HoveredBar(d) => words.number(70 + d),
            Id::HoveredArea(_) => f32::from(self.0.any(Any::HoveredArea)),
            _ => panic!("an animation of {id:?}"),
        }
    }
}

/// The one state that is stored.
pub struct IdTypeMap<T>(Option<T>);

impl<T> Default for IdTypeMap<T> {
    fn default() -> IdTypeMap<T> {
        IdTypeMap(None)
    }
}

impl<T: Copy> IdTypeMap<T> {
    pub fn get_persisted(&self, id: Id) -> Option<T> {
        assert_eq!(id, Id::Area);
        self.0
    }

    pub fn insert_persisted(&mut self, id: Id, value: T) {
        assert_eq!(id, Id::Area);
        self.0 = Some(value);
    }
}
