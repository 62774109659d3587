//! Fixed calls of wheel: every source with every flag, and no delta.

use super::scene::{Scene, Wheel, MOMENTUM, PLAIN, RUBBER, SCROLL, TRACKPAD};
use super::List;

/// Before the start, at it, inside, at the end, beyond it.
const OFFSETS: [f32; 5] = [-10.0, 0.0, 150.0, 300.0, 310.0];

/// Document 01's readings of a wheel.
pub(super) fn readings(list: &mut List) {
    for source in [0, MOMENTUM] {
        for offset in [290.0, 300.0] {
            list.add(PLAIN.wheel(Wheel {
                offset,
                delta: 20.0,
                source,
                ..SCROLL
            }));
        }
    }
    for bounced in [false, true] {
        list.add(RUBBER.wheel(Wheel {
            offset: 300.0,
            velocity: 0.0,
            source: MOMENTUM,
            dt: 0.0,
            bounced,
            ..SCROLL
        }));
    }
    list.add(RUBBER.wheel(Wheel {
        offset: 310.0,
        delta: -15.0,
        ..SCROLL
    }));
}

/// The rubber band, the parent and the bounce flag in every mixture.
fn mixtures() -> impl Iterator<Item = (Scene, bool, bool)> {
    (0..8).map(|bits| {
        let scene = if bits & 1 == 0 { PLAIN } else { RUBBER };
        (scene, bits & 2 != 0, bits & 4 != 0)
    })
}

/// Every source with every mixture of flags at every offset; both directions where the rubber band may act.
pub(super) fn every_flag(list: &mut List) {
    for source in 0..5 {
        for (turn, (scene, can_chain, bounced)) in mixtures().enumerate() {
            for (place, offset) in OFFSETS.into_iter().enumerate() {
                let wheel = Wheel {
                    offset,
                    source,
                    can_chain,
                    bounced,
                    ..SCROLL
                };
                let may_act = scene.rubber_band && source >= TRACKPAD;
                let forwards = (turn.count_ones() as usize + place) % 2 == 1;
                if may_act || forwards {
                    list.add(scene.wheel(Wheel {
                        delta: 8.0,
                        ..wheel
                    }));
                }
                if may_act || !forwards {
                    list.add(scene.wheel(Wheel {
                        delta: -8.0,
                        ..wheel
                    }));
                }
            }
        }
    }
}

/// Both zeros answer false; the flag is cleared by every source but Momentum.
pub(super) fn no_delta(list: &mut List) {
    for source in 0..5 {
        for (turn, (scene, can_chain, bounced)) in mixtures().enumerate() {
            let wheel = Wheel {
                offset: OFFSETS[(turn + source as usize) % OFFSETS.len()],
                delta: if turn % 3 == 0 { -0.0 } else { 0.0 },
                source,
                can_chain,
                bounced,
                ..SCROLL
            };
            // Without a bounce nothing is to be cleared: one mixture will do.
            if bounced || turn == 3 {
                list.add(scene.wheel(wheel));
            }
        }
    }
}
