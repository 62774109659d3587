//! egui's `scroll_physics.rs`, in its order and under its names: one axis coasts, stretches past its edge and springs back.

use std::f32::consts::E;

use crate::numbers::{abs, copysign, max, min, powi2, signum, Rangef, Stated as _};

/// The style of one axis, as egui's type of that name.
#[derive(Clone, Copy, Debug, PartialEq)]
pub struct KineticScrollStyle {
    pub decay_time: f32,
    pub stop_distance: f32,
    pub rubber_band: bool,
}

/// What drives a scroll delta, as egui's type of that name.
#[derive(Clone, Copy, Debug, PartialEq, Eq)]
pub enum MouseWheelSource {
    Unknown,
    Wheel,
    Trackpad,
    Momentum,
}

/// The part of a finger's way that counts at the edge.
const TOUCH_RUBBER_BAND_SLOPE: f32 = 0.55;

/// The longest stretch by a finger, in viewports.
const TOUCH_MAX_STRETCH: f32 = 1.0;

/// The part of a trackpad's delta that counts at the edge.
const TRACKPAD_RUBBER_BAND_SLOPE: f32 = 0.3;

/// The longest stretch by a trackpad, in viewports.
const TRACKPAD_MAX_STRETCH: f32 = 1.0 / 3.0;

/// The spring's time constant, in seconds.
const RUBBER_BAND_TIME: f32 = 0.1;

/// The offsets from 0 to the largest, which is 0 where the content fits.
pub fn scroll_bounds(max_offset: f32) -> Rangef {
    Rangef::new(0.0, max(max_offset, 0.0))
}

/// What a turn of the wheel brings.
#[derive(Clone, Copy, Debug, PartialEq)]
pub struct WheelScroll {
    /// Added to the offset.
    pub delta: f32,
    pub source: Option<MouseWheelSource>,
    /// Whether an area around this one could take the delta.
    pub can_chain_to_parent: bool,
    /// The frame's duration, which makes a speed of the delta.
    pub dt: f32,
}

/// One axis of a scroll area.
#[derive(Clone, Copy, Debug, PartialEq)]
pub struct AxisPhysics {
    /// The offsets without overscroll.
    pub bounds: Rangef,
    pub viewport_extent: f32,
    pub style: KineticScrollStyle,
}

impl AxisPhysics {
    pub fn clamp(&self, offset: f32) -> f32 {
        self.bounds.clamp(offset)
    }

    /// The signed distance from the bounds.
    pub fn overscroll(&self, offset: f32) -> f32 {
        offset - self.clamp(offset)
    }

    pub fn is_overscrolled(&self, offset: f32) -> bool {
        self.overscroll(offset) != 0.0
    }

    /// Whether the offset is outside of the bounds and may stay there.
    pub fn is_rubber_banding(&self, offset: f32) -> bool {
        self.style.rubber_band && self.is_overscrolled(offset)
    }

    /// The offset after a finger's move.
    pub fn drag(&self, offset: f32, delta: f32) -> f32 {
        if self.style.rubber_band {
            rubber_band_drag(
                offset,
                delta,
                self.bounds,
                self.viewport_extent * TOUCH_MAX_STRETCH,
                TOUCH_RUBBER_BAND_SLOPE,
            )
        } else {
            offset + delta
        }
    }

    /// Lets dt pass without a touch; answers whether the axis still moves.
    pub fn step(&self, offset: &mut f32, vel: &mut f32, dt: f32, hold: bool) -> bool {
        let edge = self.clamp(*offset);
        let overscroll = *offset - edge;

        if self.style.rubber_band && overscroll != 0.0 {
            if hold {
                return false;
            }
            self.spring_back(offset, vel, dt, edge)
        } else {
            self.coast(offset, vel, dt)
        }
    }

    /// The step's arm outside of the bounds.
    fn spring_back(&self, offset: &mut f32, vel: &mut f32, dt: f32, edge: f32) -> bool {
        let overscroll = *offset - edge;
        let (new_overscroll, new_vel) =
            critically_damped_spring_step(overscroll, *vel, dt, RUBBER_BAND_TIME);

        let stop_distance = self.style.stop_distance;
        let settled =
            abs(new_overscroll) < stop_distance && abs(new_vel * RUBBER_BAND_TIME) < stop_distance;
        if settled {
            *offset = edge;
            *vel = 0.0;
            false
        } else {
            *offset = edge + new_overscroll;
            *vel = new_vel;
            true
        }
    }

    /// The step's other arm, under a velocity that decays.
    fn coast(&self, offset: &mut f32, vel: &mut f32, dt: f32) -> bool {
        let decay_time = self.style.decay_time;
        let remaining_distance = abs(*vel) * decay_time;
        if remaining_distance < self.style.stop_distance || !remaining_distance.is_finite() {
            *vel = 0.0;
            false
        } else {
            let new_vel = *vel * (-dt / decay_time).stated_exp();
            *offset += decay_time * (*vel - new_vel);
            *vel = new_vel;
            true
        }
    }

    /// A turn of the wheel; answers whether the delta was taken.
    pub fn wheel(
        &self,
        offset: &mut f32,
        vel: &mut f32,
        scroll: WheelScroll,
        bounced_this_momentum: &mut bool,
    ) -> bool {
        let delta = scroll.delta;
        let is_momentum = scroll.source == Some(MouseWheelSource::Momentum);
        if !is_momentum {
            *bounced_this_momentum = false;
        }
        if delta == 0.0 {
            return false;
        }

        let can_scroll = (delta < 0.0 && self.bounds.min < *offset)
            || (0.0 < delta && *offset < self.bounds.max);
        let rubber_band = self.stretches(*offset, scroll, can_scroll, *bounced_this_momentum);
        if !(rubber_band || can_scroll) {
            return false;
        }

        if rubber_band && self.overscroll(*offset) * delta < 0.0 {
            *offset += delta;
            *vel = 0.0;
        } else if rubber_band && is_momentum {
            self.momentum(offset, vel, scroll, bounced_this_momentum);
        } else if rubber_band {
            *offset = self.trackpad_drag(*offset, delta);
            *vel = 0.0;
        } else {
            *offset = self.clamp(*offset + delta);
        }
        true
    }

    /// The Rust's `rubber_band` of a turn.
    fn stretches(&self, offset: f32, scroll: WheelScroll, can_scroll: bool, bounced: bool) -> bool {
        let is_trackpad = matches!(
            scroll.source,
            Some(MouseWheelSource::Trackpad | MouseWheelSource::Momentum)
        );
        self.style.rubber_band
            && is_trackpad
            && (can_scroll
                || self.is_overscrolled(offset)
                || !scroll.can_chain_to_parent
                || bounced)
    }

    /// A turn's arm by momentum: it scrolls inside the bounds, bounces once, and is let go after that.
    fn momentum(
        &self,
        offset: &mut f32,
        vel: &mut f32,
        scroll: WheelScroll,
        bounced_this_momentum: &mut bool,
    ) {
        let WheelScroll { delta, dt, .. } = scroll;
        let unclamped = *offset + delta;
        if *bounced_this_momentum {
            return;
        }
        if self.bounds.contains(unclamped) {
            *offset = unclamped;
        } else {
            if !self.is_overscrolled(*offset) {
                *offset = self.clamp(unclamped);
            }
            *vel = self.bounce_velocity(*offset, delta, dt);
            *bounced_this_momentum = true;
        }
    }

    /// A turn's arm by fingers on a trackpad.
    fn trackpad_drag(&self, offset: f32, delta: f32) -> f32 {
        rubber_band_drag(
            offset,
            delta,
            self.bounds,
            self.viewport_extent * TRACKPAD_MAX_STRETCH,
            TRACKPAD_RUBBER_BAND_SLOPE,
        )
    }

    /// The delta as a speed, at most the one whose stretch is the longest.
    fn bounce_velocity(&self, offset: f32, delta: f32, dt: f32) -> f32 {
        let room = max(
            self.viewport_extent * TRACKPAD_MAX_STRETCH - abs(self.overscroll(offset)),
            0.0,
        );
        let max_speed = room * E / RUBBER_BAND_TIME;
        let speed = if 0.0 < dt { abs(delta) / dt } else { 0.0 };
        copysign(min(speed, max_speed), delta)
    }
}

/// The offset after a drag: as it is inside the bounds, less and less outside of them.
fn rubber_band_drag(
    mut offset: f32,
    mut delta: f32,
    bounds: Rangef,
    viewport_extent: f32,
    slope: f32,
) -> f32 {
    if bounds.contains(offset) {
        let unclamped = offset + delta;
        offset = bounds.clamp(unclamped);
        delta = unclamped - offset;
    }
    if delta == 0.0 {
        return offset;
    }

    let edge = bounds.clamp(offset);
    let overscroll = offset - edge;

    let fraction = if 0.0 < viewport_extent {
        min(abs(overscroll) / viewport_extent, 1.0)
    } else {
        1.0
    };
    let factor = slope * powi2(1.0 - fraction);
    let new_overscroll = overscroll + delta * factor;

    if overscroll != 0.0 && signum(new_overscroll) != signum(overscroll) {
        // Back over the edge: what is left of the delta counts whole.
        let delta_to_reach_edge = -overscroll / factor;
        let remaining = delta - delta_to_reach_edge;
        bounds.clamp(edge + remaining)
    } else {
        edge + new_overscroll
    }
}

/// Position and velocity of a critically damped spring after dt.
fn critically_damped_spring_step(x0: f32, v0: f32, dt: f32, time_constant: f32) -> (f32, f32) {
    if time_constant <= 0.0 {
        return (0.0, 0.0);
    }
    let w = 1.0 / time_constant;
    let e = (-w * dt).stated_exp();
    let a = v0 + w * x0;
    ((x0 + a * dt) * e, (v0 - a * w * dt) * e)
}
