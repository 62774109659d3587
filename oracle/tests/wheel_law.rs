//! Document 02's K6: the law of which wheel turns are taken holds of the oracle's wheel, and other answers break it.

use oracle::axis_calls::{turned, Wheeled};
use oracle::axis_vectors::{fixed_list, random_list, Call};
use oracle::scroll_physics::MouseWheelSource;
use oracle::wheel_law::{Ground, Turn};

/// The accepted wheel calls of a list, with their answers.
fn accepted(list: &[Call]) -> Vec<(Turn, Wheeled)> {
    let turns = list.iter().filter_map(Call::turn);
    let answered = turns.map(|turn| (turn, turned(&turn)));
    answered.filter(|(_, left)| left.refusal == 0).collect()
}

/// The stored calls, and many that may occur.
fn lists() -> [Vec<(Turn, Wheeled)>; 2] {
    [fixed_list(), random_list(1, 300_000)].map(|list| accepted(&list))
}

#[test]
fn the_law_holds_of_the_wheel() {
    for list in lists() {
        for (turn, left) in list {
            assert_eq!(turn.broken(&left), None, "{turn:?} {left:?}");
        }
    }
}

#[test]
fn every_ground_is_met_and_says_the_answer() {
    for list in lists() {
        let mut met = [0; 6];
        for (turn, left) in list {
            let ground = turn.ground();
            met[ground as usize] += 1;
            let is_taken = ![Ground::Zero, Ground::Nobody].contains(&ground);
            assert_eq!(left.answer, is_taken, "{turn:?} {ground:?}");
        }
        assert!(met.iter().all(|count| *count >= 10), "{met:?}");
    }
}

/// Rubber banding where the offset can move is by `can` alone, which takes the turn without it too.
#[test]
fn the_grounds_are_those_of_the_statement() {
    for list in lists() {
        for (turn, _) in list {
            let by_band = [Ground::Overscroll, Ground::NoParent].contains(&turn.ground());
            let has_delta = turn.scroll.delta != 0.0;
            assert_eq!(by_band, has_delta && !turn.can() && turn.band(), "{turn:?}");
            let by_corner = turn.ground() == Ground::Corner;
            let alone = has_delta && !turn.can() && !turn.band();
            assert_eq!(by_corner, alone && turn.corner(), "{turn:?}");
        }
    }
}

/// That the law does not let an answer pass in the place of the one that is left.
fn assert_broken(turn: &Turn, left: Wheeled, sentence: &str) {
    let broken = turn.broken(&left).unwrap_or_default();
    assert!(broken.starts_with(sentence), "{turn:?} {left:?}: {broken}");
}

#[test]
fn another_answer_breaks_the_law() {
    for (turn, left) in lists().concat() {
        let answer = !left.answer;
        assert!(turn.broken(&Wheeled { answer, ..left }).is_some());
    }
}

/// Every bit of both counts, the sign of a zero too.
#[test]
fn a_turn_that_is_left_keeps_offset_and_velocity() {
    let other = |x: f32, bit: usize| f32::from_bits(x.to_bits() ^ 1 << bit);
    for (turn, left) in lists().concat() {
        for bit in [0, 22, 31] {
            let offset = other(left.offset, bit);
            let velocity = other(left.velocity, bit);
            if !left.answer {
                assert_broken(&turn, Wheeled { offset, ..left }, "an answer of false");
                assert_broken(&turn, Wheeled { velocity, ..left }, "an answer of false");
            } else if !turn.axis.style.rubber_band {
                assert_broken(&turn, Wheeled { velocity, ..left }, "an answer of true");
            }
        }
    }
}

#[test]
fn a_turn_that_is_taken_without_rubber_band_ends_inside() {
    let mut taken = lists().concat();
    taken.retain(|(turn, left)| left.answer && !turn.axis.style.rubber_band);
    for (turn, left) in taken {
        let bounds = turn.axis.bounds;
        for offset in [bounds.min.next_down(), bounds.max.next_up()] {
            assert_broken(&turn, Wheeled { offset, ..left }, "an answer of true");
        }
        for offset in [bounds.min, bounds.max] {
            assert_eq!(turn.broken(&Wheeled { offset, ..left }), None);
        }
    }
}

#[test]
fn the_bounce_flag_stays_with_momentum_alone() {
    for (turn, left) in lists().concat() {
        let bounced = true;
        let set = Wheeled { bounced, ..left };
        if turn.scroll.source == Some(MouseWheelSource::Momentum) {
            assert_eq!(turn.broken(&set), None);
        } else {
            assert_broken(&turn, set, "a source other than Momentum");
        }
    }
}

#[test]
fn a_refused_call_is_outside_the_law() {
    let turns: Vec<Turn> = fixed_list().iter().filter_map(Call::turn).collect();
    let mut refused = turns.iter().map(|turn| (turn, turned(turn)));
    // Refused with 4, where the flag stays set and the law would have it clear.
    let met = refused.any(|(turn, left)| {
        let as_accepted = Wheeled { refusal: 0, ..left };
        let broken = turn.broken(&as_accepted).unwrap_or_default();
        left.refusal == 4 && broken.starts_with("a source other") && turn.broken(&left).is_none()
    });
    assert!(met);
}

#[cfg(feature = "branches")]
#[test]
fn every_accepted_call_counts_its_ground_once() {
    use oracle::branches::{count_of, Branch, OF_WHEEL_CALLS};
    let counts = || OF_WHEEL_CALLS.iter().map(|named| count_of(named.0));
    let mut expected = vec![0; OF_WHEEL_CALLS.len()];
    for turn in fixed_list().iter().filter_map(Call::turn) {
        let branch = match turn.ground() {
            Ground::Zero => Branch::CallZero,
            Ground::Can => Branch::CallCan,
            Ground::Overscroll => Branch::CallOverscroll,
            Ground::NoParent => Branch::CallNoParent,
            Ground::Corner => Branch::CallCorner,
            Ground::Nobody => Branch::CallNobody,
        };
        let is_accepted = turned(&turn).refusal == 0;
        expected[branch as usize - Branch::CallZero as usize] += u64::from(is_accepted);
        assert!(counts().eq(expected.iter().copied()), "{turn:?}");
    }
    assert!(expected.iter().all(|count| *count > 0), "{expected:?}");
}

/// The frames are run while the list is made.
#[cfg(feature = "branches")]
#[test]
fn every_turn_in_a_frame_counts_its_ground_once() {
    use oracle::branches::Branch::{TurnCan, TurnCorner, TurnNoParent, TurnOverscroll};
    use oracle::branches::Branch::{TurnNobody, TurnZero, WheelLeft, WheelTaken};
    use oracle::branches::{count_of, Branch, OF_TURNS};
    oracle::scenes::scene_list(1, 200_000);
    for (branch, words) in OF_TURNS {
        assert!(count_of(*branch) >= 10, "{words}: {}", count_of(*branch));
    }
    let sum = |branches: &[Branch]| -> u64 { branches.iter().map(|one| count_of(*one)).sum() };
    let taken = sum(&[TurnCan, TurnOverscroll, TurnNoParent, TurnCorner]);
    assert_eq!(taken, count_of(WheelTaken));
    assert_eq!(sum(&[TurnZero, TurnNobody]), count_of(WheelLeft));
}

#[test]
fn calls_and_frames_count_the_grounds_in_one_order() {
    use oracle::branches::{Branch, OF_TURNS, OF_WHEEL_CALLS};
    let grounds = |branches: &[(Branch, &'static str)]| -> Vec<&str> {
        let parts = branches.iter().map(|(_, words)| words.split_once(": "));
        parts.map(|parts| parts.expect("a ground").1).collect()
    };
    assert_eq!(grounds(OF_WHEEL_CALLS).len(), 6);
    assert_eq!(grounds(OF_TURNS), grounds(OF_WHEEL_CALLS));
}
