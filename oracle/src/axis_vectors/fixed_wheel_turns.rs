//! Fixed calls of wheel: who takes a turn, at every end and on every ground.

use super::scene::{Scene, Wheel, MOMENTUM, PLAIN, RUBBER, SCROLL, TRACKPAD, WHEEL};
use super::{Call, List};
use crate::words::SMALLEST;

/// Document 01: "source (0 none, 1 Unknown, 2 Wheel, 3 Trackpad, 4 Momentum)".
const SOURCES: [u32; 5] = [0, 1, WHEEL, TRACKPAD, MOMENTUM];

/// Outside both ends, by much and by one step; on them; one step behind the start, and in the middle.
const OFFSETS: [f32; 9] = [
    -10.0,
    -SMALLEST,
    -0.0,
    0.0,
    SMALLEST,
    150.0,
    300.0,
    300f32.next_up(),
    310.0,
];

/// Both directions, by much and by next to nothing, and both zeros.
const DELTAS: [f32; 6] = [-8.0, -SMALLEST, -0.0, 0.0, SMALLEST, 8.0];

/// A turn whose velocity shows whether it was kept.
const TURN: Wheel = Wheel {
    velocity: 5.0,
    dt: 1.0 / 60.0,
    ..SCROLL
};

/// On the start, further back: there is no room, though the offset is not below the start.
pub fn back_from_the_start() -> Call {
    PLAIN.wheel(Wheel {
        offset: 0.0,
        delta: -8.0,
        source: WHEEL,
        ..TURN
    })
}

/// On the end, further on, where nobody else could have the turn.
pub fn trackpad_without_a_parent() -> Call {
    RUBBER.wheel(Wheel {
        offset: 300.0,
        delta: 8.0,
        source: TRACKPAD,
        can_chain: false,
        ..TURN
    })
}

/// On the end, further on, while the list moves: the turn is left, and the list moves on.
pub fn left_while_moving() -> Call {
    PLAIN.wheel(Wheel {
        offset: 300.0,
        delta: 20.0,
        source: WHEEL,
        ..TURN
    })
}

/// Further than the end, which is where the offset stops.
pub fn onto_the_end() -> Call {
    PLAIN.wheel(Wheel {
        offset: 290.0,
        delta: 20.0,
        source: WHEEL,
        ..TURN
    })
}

/// Momentum that has bounced, on the end, with a parent that does not get the rest of it.
pub fn momentum_after_a_bounce() -> Call {
    RUBBER.wheel(Wheel {
        offset: 300.0,
        delta: 8.0,
        source: MOMENTUM,
        can_chain: true,
        bounced: true,
        ..TURN
    })
}

/// The calls on which a wrong statement of the law is false.
pub(super) fn named(list: &mut List) {
    list.add(back_from_the_start());
    list.add(trackpad_without_a_parent());
    list.add(left_while_moving());
    list.add(onto_the_end());
    list.add(momentum_after_a_bounce());
}

/// Every source and flag at every offset, by every delta.
pub(super) fn every_turn(list: &mut List) {
    add_turns(list, [PLAIN, RUBBER], &SOURCES, &OFFSETS, &DELTAS);
}

/// Bounds of one number: on it there is no room, beyond it only back.
pub(super) fn one_number(list: &mut List) {
    let scenes = [PLAIN, RUBBER].map(|scene| Scene { max: 0.0, ..scene });
    let offsets = [-0.0, 0.0, 10.0];
    add_turns(list, scenes, &SOURCES[2..], &offsets, &[-8.0, 8.0]);
}

/// Offsets that no delta moves: what is taken with rubber band off comes back to the bounds, what is left stays there.
pub(super) fn far_out(list: &mut List) {
    let offsets = [-3e38, 3e38];
    add_turns(list, [PLAIN, RUBBER], &SOURCES[2..], &offsets, &[-8.0, 8.0]);
}

/// Every mixture of them, before and after a bounce.
fn add_turns(
    list: &mut List,
    scenes: [Scene; 2],
    sources: &[u32],
    offsets: &[f32],
    deltas: &[f32],
) {
    for scene in scenes {
        for source in sources {
            for offset in offsets {
                for delta in deltas {
                    for bounced in [false, true] {
                        let wheel = Wheel {
                            offset: *offset,
                            delta: *delta,
                            source: *source,
                            bounced,
                            ..TURN
                        };
                        add_parents(list, scene, wheel);
                    }
                }
            }
        }
    }
}

/// With and without a parent where one can matter: the rubber band is on and there is a delta. Else one of the two, by turns.
fn add_parents(list: &mut List, scene: Scene, wheel: Wheel) {
    let matters = scene.rubber_band && wheel.delta != 0.0;
    let flags = u32::from(wheel.bounced) + u32::from(wheel.delta.is_sign_negative());
    let is_odd = (wheel.source + flags) % 2 == 1;
    for can_chain in [false, true] {
        if matters || can_chain == is_odd {
            list.add(scene.wheel(Wheel { can_chain, ..wheel }));
        }
    }
}
