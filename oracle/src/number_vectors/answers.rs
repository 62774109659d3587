//! The answer of a call, by its name.

use super::{join, split};
use crate::numbers::{self, Rangef};
use crate::rectangles::{Align, Pos2, Rect};
use crate::words::shown;

/// The bits of an f64, high word first; every not-a-number is shown alike.
fn shown_wide(x: f64) -> Vec<u32> {
    if x.is_nan() {
        vec![0x7ff8_0000, 0]
    } else {
        split(x)
    }
}

fn pos(f: &[f32]) -> Pos2 {
    Pos2 { x: f[0], y: f[1] }
}

fn rect(f: &[f32]) -> Rect {
    let (min, max) = (pos(&f[..2]), pos(&f[2..]));
    Rect { min, max }
}

fn shown_rect(rect: Rect) -> Vec<u32> {
    let corners = [rect.min.x, rect.min.y, rect.max.x, rect.max.y];
    corners.map(shown).to_vec()
}

fn align(kind: u32) -> Align {
    [Align::Min, Align::Center, Align::Max][kind as usize]
}

/// The answer's words.
pub(super) fn answer(name: &str, words: &[u32; 8]) -> Vec<u32> {
    let f = words.map(f32::from_bits);
    let range = Rangef {
        min: f[0],
        max: f[1],
    };
    match name {
        "range_contains" => vec![range.contains(f[2]).into()],
        "widen" => shown_wide(numbers::widen(f[0])),
        "rect_from_min_size" => shown_rect(Rect::from_min_size(pos(&f), [f[2], f[3]])),
        "rect_size" => <[f32; 2]>::from(rect(&f).size()).map(shown).to_vec(),
        "rect_intersect" => shown_rect(rect(&f).intersect(rect(&f[4..]))),
        "rect_contains" => vec![rect(&f).contains(pos(&f[4..])).into()],
        _ => vec![shown(number_answer(name, words))],
    }
}

/// The answer of a call that answers with one number.
fn number_answer(name: &str, words: &[u32; 8]) -> f32 {
    let f = words.map(f32::from_bits);
    match name {
        "abs" => numbers::abs(f[0]),
        "copysign" => numbers::copysign(f[0], f[1]),
        "signum" => numbers::signum(f[0]),
        "max" => numbers::max(f[0], f[1]),
        "min" => numbers::min(f[0], f[1]),
        "powi2" => numbers::powi2(f[0]),
        "flag_as_number" => numbers::flag_as_number(words[0] != 0),
        "clamp" => numbers::clamp(f[0], f[1], f[2]),
        "ceil" => numbers::ceil(f[0]),
        "narrow" => numbers::narrow(join(words)),
        "lerp" => numbers::lerp(f[0], f[1], f[2]),
        "remap" => numbers::remap(f[0], f[1], f[2], f[3], f[4]),
        "remap_clamp" => numbers::remap_clamp(f[0], f[1], f[2], f[3], f[4]),
        "ease_in_ease_out" => numbers::ease_in_ease_out(f[0]),
        "interpolation_factor" => {
            let (start, end, time) = (join(words), join(&words[2..]), join(&words[4..]));
            numbers::interpolation_factor(start, end, time, f[6])
        }
        "align_factor" => align(words[0]).to_factor(),
        "exp" => numbers::exp(f[0]),
        _ => unreachable!("{name} has no answer"),
    }
}
