//! The fields of a frame, from its 104 words; words are numbered from 1.

use crate::numbers::Rangef;
use crate::rectangles::{Align, Pos2, Rect};
use crate::scroll_physics::{KineticScrollStyle, MouseWheelSource};

/// When the bars show, as egui's type of that name.
#[derive(Clone, Copy, Debug, PartialEq)]
pub enum ScrollBarVisibility {
    AlwaysHidden,
    VisibleWhenNeeded,
    AlwaysVisible,
}

/// When dragging the content scrolls it, as egui's type of that name.
#[derive(Clone, Copy, Debug, PartialEq)]
pub enum DragScroll {
    Never,
    OnTouch,
    Always,
}

/// How fast a scroll target is approached, as egui's type of that name.
#[derive(Clone, Copy, Debug, PartialEq)]
pub struct ScrollAnimation {
    pub points_per_second: f32,
    pub duration: Rangef,
}

/// What is to be scrolled into view along one axis, as egui's type of that name.
#[derive(Clone, Copy, Debug, PartialEq)]
pub struct ScrollTarget {
    pub range: Rangef,
    pub align: Option<Align>,
    pub animation: ScrollAnimation,
}

/// The response of a bar: what the Rust asks it.
#[derive(Clone, Copy, Debug, PartialEq)]
pub struct BarResponse {
    pub hovered: bool,
    pub dragged: bool,
    pub interact_pointer_pos: Option<Pos2>,
}

/// Words 1 to 26; scroll_bar is left out, since it is checked only.
#[derive(Clone, Copy, Debug, PartialEq)]
pub struct Settings {
    pub direction_enabled: [bool; 2],
    pub auto_shrink: [bool; 2],
    pub max_size: [f32; 2],
    pub min_scrolled_size: [f32; 2],
    pub scroll_bar_visibility: ScrollBarVisibility,
    pub scroll_bar_rect: Option<Rect>,
    pub offset_x: Option<f32>,
    pub offset_y: Option<f32>,
    pub drag: DragScroll,
    pub mouse_wheel: bool,
    pub wheel_scroll_multiplier: [f32; 2],
    pub stick_to_end: [bool; 2],
    pub animated: bool,
}

/// Words 27 to 39.
#[derive(Clone, Copy, Debug, PartialEq)]
pub struct Style {
    pub floating: bool,
    pub allocated_width: f32,
    pub bar_width: f32,
    pub bar_inner_margin: f32,
    pub bar_outer_margin: f32,
    pub floating_width: f32,
    pub handle_min_length: f32,
    pub item_spacing: [f32; 2],
    pub always_scroll_the_only_direction: bool,
    pub kinetic: KineticScrollStyle,
}

/// Words 40 to 81.
#[derive(Clone, Copy, Debug, PartialEq)]
pub struct Host {
    pub available_rect: Rect,
    pub clip_rect: Rect,
    pub is_enabled: bool,
    pub has_touch_screen: bool,
    pub has_scrolling_ancestor: bool,
    pub stable_dt: f32,
    pub time: f64,
    pub pointer_pos: Option<Pos2>,
    pub pointer_delta: [f32; 2],
    pub pointer_velocity: [f32; 2],
    pub dragged: bool,
    pub drag_stopped: bool,
    pub scroll_source: Option<MouseWheelSource>,
    pub smooth_scroll_delta: [f32; 2],
    pub bar_factors: [f32; 2],
    pub bar_factors_on_opening: [f32; 2],
    pub hover_factors: [f32; 2],
    pub bars: [BarResponse; 2],
}

/// Words 82 to 104.
#[derive(Clone, Copy, Debug, PartialEq)]
pub struct Content {
    pub min_size: [f32; 2],
    pub min: Pos2,
    pub scroll_delta: [f32; 2],
    pub scroll_animation: ScrollAnimation,
    pub scroll_target: [Option<ScrollTarget>; 2],
}

/// A frame that checks 1 to 5 let pass.
#[derive(Clone, Copy, Debug, PartialEq)]
pub struct Fields {
    pub settings: Settings,
    pub style: Style,
    pub host: Host,
    pub content: Content,
}

impl Fields {
    /// The fields in these bytes, which checks 1 to 5 have let pass.
    pub fn of(bytes: &[u8]) -> Fields {
        let words = Words(bytes);
        Fields {
            settings: words.settings(),
            style: words.style(),
            host: words.host(),
            content: words.content(),
        }
    }
}

impl Host {
    /// Document 01: "A rectangle holds the pointer if its intersection with the clip does".
    pub fn rect_contains_pointer(&self, rect: Rect) -> bool {
        let visible = self.clip_rect.intersect(rect);
        self.pointer_pos.is_some_and(|pos| visible.contains(pos))
    }
}

/// The bytes, read by word numbers.
struct Words<'a>(&'a [u8]);

impl Words<'_> {
    fn word(&self, number: usize) -> u32 {
        let end = 4 * number;
        u32::from_le_bytes(self.0[end - 4..end].try_into().expect("four bytes"))
    }

    fn flag(&self, number: usize) -> bool {
        self.word(number) == 1
    }

    fn flags(&self, first: usize) -> [bool; 2] {
        [self.flag(first), self.flag(first + 1)]
    }

    fn number(&self, number: usize) -> f32 {
        f32::from_bits(self.word(number))
    }

    fn numbers(&self, first: usize) -> [f32; 2] {
        [self.number(first), self.number(first + 1)]
    }

    fn point(&self, first: usize) -> Pos2 {
        let [x, y] = self.numbers(first);
        Pos2 { x, y }
    }

    fn range(&self, first: usize) -> Rangef {
        let [min, max] = self.numbers(first);
        Rangef { min, max }
    }

    fn rect(&self, first: usize) -> Rect {
        Rect::from_min_max(self.point(first), self.point(first + 2))
    }

    /// What follows the flag, if the flag is 1.
    fn option<T>(&self, flag: usize, read: fn(&Self, usize) -> T) -> Option<T> {
        self.flag(flag).then(|| read(self, flag + 1))
    }

    fn animation(&self, first: usize) -> ScrollAnimation {
        ScrollAnimation {
            points_per_second: self.number(first),
            duration: self.range(first + 1),
        }
    }

    fn target(&self, first: usize) -> ScrollTarget {
        let align = match self.word(first + 2) {
            0 => None,
            1 => Some(Align::Min),
            2 => Some(Align::Center),
            _ => Some(Align::Max),
        };
        ScrollTarget {
            range: self.range(first),
            align,
            animation: self.animation(first + 3),
        }
    }

    fn bar(&self, first: usize) -> BarResponse {
        BarResponse {
            hovered: self.flag(first),
            dragged: self.flag(first + 1),
            interact_pointer_pos: self.option(first + 2, Self::point),
        }
    }

    fn visibility(&self, number: usize) -> ScrollBarVisibility {
        match self.word(number) {
            0 => ScrollBarVisibility::AlwaysHidden,
            1 => ScrollBarVisibility::VisibleWhenNeeded,
            _ => ScrollBarVisibility::AlwaysVisible,
        }
    }

    fn drag(&self, number: usize) -> DragScroll {
        match self.word(number) {
            0 => DragScroll::Never,
            1 => DragScroll::OnTouch,
            _ => DragScroll::Always,
        }
    }

    fn source(&self, number: usize) -> Option<MouseWheelSource> {
        match self.word(number) {
            0 => None,
            1 => Some(MouseWheelSource::Unknown),
            2 => Some(MouseWheelSource::Wheel),
            3 => Some(MouseWheelSource::Trackpad),
            _ => Some(MouseWheelSource::Momentum),
        }
    }

    /// Low word first.
    fn time(&self, low: usize) -> f64 {
        let high = u64::from(self.word(low + 1));
        f64::from_bits(high << 32 | u64::from(self.word(low)))
    }

    fn settings(&self) -> Settings {
        Settings {
            direction_enabled: self.flags(1),
            auto_shrink: self.flags(3),
            max_size: self.numbers(5),
            min_scrolled_size: self.numbers(7),
            scroll_bar_visibility: self.visibility(9),
            scroll_bar_rect: self.option(10, Self::rect),
            offset_x: self.option(15, Self::number),
            offset_y: self.option(17, Self::number),
            drag: self.drag(20),
            mouse_wheel: self.flag(21),
            wheel_scroll_multiplier: self.numbers(22),
            stick_to_end: self.flags(24),
            animated: self.flag(26),
        }
    }

    fn style(&self) -> Style {
        Style {
            floating: self.flag(27),
            allocated_width: self.number(28),
            bar_width: self.number(29),
            bar_inner_margin: self.number(30),
            bar_outer_margin: self.number(31),
            floating_width: self.number(32),
            handle_min_length: self.number(33),
            item_spacing: self.numbers(34),
            always_scroll_the_only_direction: self.flag(36),
            kinetic: KineticScrollStyle {
                decay_time: self.number(37),
                stop_distance: self.number(38),
                rubber_band: self.flag(39),
            },
        }
    }

    fn host(&self) -> Host {
        Host {
            available_rect: self.rect(40),
            clip_rect: self.rect(44),
            is_enabled: self.flag(48),
            has_touch_screen: self.flag(49),
            has_scrolling_ancestor: self.flag(50),
            stable_dt: self.number(51),
            time: self.time(52),
            pointer_pos: self.option(54, Self::point),
            pointer_delta: self.numbers(57),
            pointer_velocity: self.numbers(59),
            dragged: self.flag(61),
            drag_stopped: self.flag(62),
            scroll_source: self.source(63),
            smooth_scroll_delta: self.numbers(64),
            bar_factors: self.numbers(66),
            bar_factors_on_opening: self.numbers(68),
            hover_factors: self.numbers(70),
            bars: [self.bar(72), self.bar(77)],
        }
    }

    fn content(&self) -> Content {
        Content {
            min_size: self.numbers(82),
            min: self.point(84),
            scroll_delta: self.numbers(86),
            scroll_animation: self.animation(88),
            scroll_target: [91, 98].map(|flag| self.option(flag, Self::target)),
        }
    }
}
