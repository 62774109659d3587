//! The style: words 27 to 39, and what is for painting alone.

use crate::context::{Any, Host};
use crate::words::Words;
use crate::{Rangef, Vec2};
use epaint::{Color32, CornerRadius, Margin, Stroke};

#[derive(Clone, Copy, Debug, PartialEq)]
pub struct KineticScrollStyle {
    pub decay_time: f32,
    pub stop_distance: f32,
    pub rubber_band: bool,
}

impl KineticScrollStyle {
    pub(crate) fn of(words: Words, first: usize) -> KineticScrollStyle {
        KineticScrollStyle {
            decay_time: words.number(first),
            stop_distance: words.number(first + 1),
            rubber_band: words.flag(first + 2),
        }
    }
}

#[derive(Clone, Copy, Debug, PartialEq)]
pub struct ScrollAnimation {
    pub points_per_second: f32,
    pub duration: Rangef,
}

#[derive(Clone, Copy, Debug, PartialEq)]
pub struct ScrollFadeStyle {
    pub strength: f32,
    pub size: f32,
}

#[derive(Clone, Copy, Debug, PartialEq)]
pub struct ScrollStyle {
    pub floating: bool,
    allocated_width: f32,
    pub bar_width: f32,
    pub bar_inner_margin: f32,
    pub bar_outer_margin: f32,
    pub floating_width: f32,
    pub handle_min_length: f32,
    pub kinetic: KineticScrollStyle,
    pub content_margin: Margin,
    pub foreground_color: bool,
    pub dormant_background_opacity: f32,
    pub active_background_opacity: f32,
    pub interact_background_opacity: f32,
    pub dormant_handle_opacity: f32,
    pub active_handle_opacity: f32,
    pub interact_handle_opacity: f32,
    pub fade: ScrollFadeStyle,
}

impl ScrollStyle {
    fn of(host: &Host) -> ScrollStyle {
        let words = host.words();
        ScrollStyle {
            floating: words.flag(27),
            allocated_width: words.number(28),
            bar_width: words.number(29),
            bar_inner_margin: words.number(30),
            bar_outer_margin: words.number(31),
            floating_width: words.number(32),
            handle_min_length: words.number(33),
            kinetic: KineticScrollStyle::of(words, 37),
            content_margin: Margin,
            foreground_color: host.any(Any::ForegroundColor),
            dormant_background_opacity: 0.0,
            active_background_opacity: 0.0,
            interact_background_opacity: 0.0,
            dormant_handle_opacity: 0.0,
            active_handle_opacity: 0.0,
            interact_handle_opacity: 0.0,
            fade: ScrollFadeStyle {
                strength: f32::from(host.any(Any::Fade)),
                size: 20.0,
            },
        }
    }

    pub fn allocated_width(&self) -> f32 {
        self.allocated_width
    }
}

pub struct Spacing {
    pub item_spacing: Vec2,
    pub scroll: ScrollStyle,
}

pub struct WidgetVisuals {
    pub bg_fill: Color32,
    pub corner_radius: CornerRadius,
    pub fg_stroke: Stroke,
}

impl WidgetVisuals {
    const PLAIN: WidgetVisuals = WidgetVisuals {
        bg_fill: Color32,
        corner_radius: CornerRadius,
        fg_stroke: Stroke { color: Color32 },
    };
}

pub struct Widgets {
    pub active: WidgetVisuals,
    pub hovered: WidgetVisuals,
    pub inactive: WidgetVisuals,
}

pub struct Visuals {
    pub widgets: Widgets,
    pub extreme_bg_color: Color32,
}

pub struct Style {
    pub always_scroll_the_only_direction: bool,
    pub spacing: Spacing,
    pub visuals: Visuals,
}

impl Style {
    pub(crate) fn of(host: &Host) -> Style {
        Style {
            always_scroll_the_only_direction: host.words().flag(36),
            spacing: Spacing {
                item_spacing: host.words().pair(34),
                scroll: ScrollStyle::of(host),
            },
            visuals: Visuals {
                widgets: Widgets {
                    active: WidgetVisuals::PLAIN,
                    hovered: WidgetVisuals::PLAIN,
                    inactive: WidgetVisuals::PLAIN,
                },
                extreme_bg_color: Color32,
            },
        }
    }
}
