//! Axes and wheel deltas from which calls are written down.

use super::{Call, Kind};

pub const WHEEL: u32 = 2;
pub const TRACKPAD: u32 = 3;
pub const MOMENTUM: u32 = 4;

/// An axis, in the order of its words.
#[derive(Clone, Copy)]
pub struct Scene {
    pub min: f32,
    pub max: f32,
    pub extent: f32,
    pub decay_time: f32,
    pub stop_distance: f32,
    pub rubber_band: bool,
}

/// The axis of document 01's readings, rubber band off.
pub const PLAIN: Scene = Scene {
    min: 0.0,
    max: 300.0,
    extent: 100.0,
    decay_time: 1.0,
    stop_distance: 1.0,
    rubber_band: false,
};

/// The same with the rubber band on.
pub const RUBBER: Scene = Scene {
    rubber_band: true,
    ..PLAIN
};

/// The operands of a wheel call, in the order of its words.
#[derive(Clone, Copy)]
pub struct Wheel {
    pub offset: f32,
    pub velocity: f32,
    pub delta: f32,
    pub source: u32,
    pub can_chain: bool,
    pub dt: f32,
    pub bounced: bool,
}

/// A wheel call whose given velocity shows whether it was kept.
pub const SCROLL: Wheel = Wheel {
    offset: 150.0,
    velocity: 40.0,
    delta: 8.0,
    source: TRACKPAD,
    can_chain: false,
    dt: 0.016,
    bounced: false,
};

impl Scene {
    fn call(self, kind: Kind, operands: &[u32]) -> Call {
        let own = [
            self.min,
            self.max,
            self.extent,
            self.decay_time,
            self.stop_distance,
        ];
        let axis = [
            own.map(f32::to_bits).to_vec(),
            vec![self.rubber_band.into()],
        ];
        let given = [&axis.concat(), operands].concat();
        assert_eq!(given.len(), kind.used());
        let mut words = [0; 13];
        words[..given.len()].copy_from_slice(&given);
        Call { kind, words }
    }

    pub fn drag(self, offset: f32, delta: f32) -> Call {
        self.call(Kind::Drag, &[offset.to_bits(), delta.to_bits()])
    }

    pub fn step(self, offset: f32, velocity: f32, dt: f32, hold: bool) -> Call {
        let [offset, velocity, dt] = [offset, velocity, dt].map(f32::to_bits);
        self.call(Kind::Step, &[offset, velocity, dt, hold.into()])
    }

    pub fn wheel(self, wheel: Wheel) -> Call {
        let operands = [
            wheel.offset.to_bits(),
            wheel.velocity.to_bits(),
            wheel.delta.to_bits(),
            wheel.source,
            wheel.can_chain.into(),
            wheel.dt.to_bits(),
            wheel.bounced.into(),
        ];
        self.call(Kind::Wheel, &operands)
    }
}
