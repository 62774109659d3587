//! What the tests of one axis share.

use oracle::numbers::Rangef;
use oracle::scroll_physics::{AxisPhysics, KineticScrollStyle};

/// Document 01: "Bounds 0 to 300, extent 100".
pub fn axis(rubber_band: bool) -> AxisPhysics {
    AxisPhysics {
        bounds: Rangef::new(0.0, 300.0),
        viewport_extent: 100.0,
        style: KineticScrollStyle {
            decay_time: 1.0,
            stop_distance: 1.0,
            rubber_band,
        },
    }
}
