//! The places of the operands; after the offset they differ between the kinds.

pub const MIN: usize = 0;
pub const MAX: usize = 1;
pub const EXTENT: usize = 2;
pub const DECAY_TIME: usize = 3;
pub const STOP_DISTANCE: usize = 4;
pub const RUBBER_BAND: usize = 5;
pub const OFFSET: usize = 6;

pub const DRAG_DELTA: usize = 7;

/// Of a step and of a wheel call.
pub const VELOCITY: usize = 7;

pub const STEP_DT: usize = 8;
pub const HOLD: usize = 9;

pub const WHEEL_DELTA: usize = 8;
pub const SOURCE: usize = 9;
pub const CAN_CHAIN: usize = 10;
pub const WHEEL_DT: usize = 11;
pub const BOUNCED: usize = 12;
