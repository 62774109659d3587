//! The ids that egui's text makes, each by the question that it is for.

pub trait AsIdSalt {}

impl AsIdSalt for &str {}

#[derive(Clone, Copy, Debug, PartialEq, Eq)]
pub struct IdSalt;

impl IdSalt {
    pub fn new(_salt: impl AsIdSalt) -> IdSalt {
        IdSalt
    }
}

#[derive(Clone, Copy, Debug, PartialEq, Eq)]
pub enum Id {
    Area,
    Background,
    /// How far the bar of an axis is shown.
    ShownBar(usize),
    Bar(usize),
    /// How far the hovered bar of an axis is grown.
    HoveredBar(usize),
    /// For opacity alone.
    HoveredArea(usize),
}

impl Id {
    pub fn with(self, child: impl Into<Id>) -> Id {
        assert_eq!(self, Id::Area);
        child.into()
    }
}

impl From<&str> for Id {
    fn from(name: &str) -> Id {
        match name {
            "h" => Id::ShownBar(0),
            "v" => Id::ShownBar(1),
            "area" => Id::Background,
            _ => panic!("an id of {name:?}"),
        }
    }
}

impl From<usize> for Id {
    fn from(d: usize) -> Id {
        Id::Bar(d)
    }
}

impl From<(usize, &str)> for Id {
    fn from((d, name): (usize, &str)) -> Id {
        match name {
            "bar_hover" => Id::HoveredBar(d),
            "is_hovering_outer_rect" => Id::HoveredArea(d),
            _ => panic!("an id of {name:?}"),
        }
    }
}
