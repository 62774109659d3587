//! The names of the crate epaint that egui's scroll_area.rs uses. Document 01 leaves painting out: a filled rectangle keeps its place, by which
//! the handle that egui paints is read, and nothing else is kept.

use emath::Rect;

#[derive(Clone, Copy, Debug, PartialEq)]
pub struct Color32;

impl Color32 {
    pub const TRANSPARENT: Color32 = Color32;

    pub fn gamma_multiply(self, _factor: f32) -> Color32 {
        self
    }
}

#[derive(Clone, Copy, Debug, PartialEq)]
pub struct CornerRadius;

#[derive(Clone, Copy, Debug, PartialEq)]
pub struct Margin;

#[derive(Clone, Copy, Debug, PartialEq)]
pub struct Stroke {
    pub color: Color32,
}

#[derive(Clone, Copy, Debug, PartialEq)]
pub enum Direction {
    LeftToRight,
    RightToLeft,
    TopDown,
    BottomUp,
}

#[derive(Clone, Copy, Debug, PartialEq)]
pub enum Shape {
    RectFilled(Rect),
    Gradient,
}

impl Shape {
    pub fn rect_filled(rect: Rect, _corner_radius: CornerRadius, _color: Color32) -> Shape {
        Shape::RectFilled(rect)
    }

    pub fn gradient_rect(_rect: Rect, _direction: Direction, _colors: [Color32; 2]) -> Shape {
        Shape::Gradient
    }
}
