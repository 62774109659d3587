//! The clocks of the lists: set back and put right, or set back with resets, and what random states remember.

use oracle::clock::{run, Remembering};
use oracle::frame_vectors::random_state;
use oracle::random::Random;
use oracle::run_vectors::lists::{list, NOW};
use oracle::scenes::{
    fling_list, flings_with_resets, half_flings_with_resets, scene_list, scenes_with_resets, Played,
};

/// Frames in each list here.
const COUNT: usize = 20_000;

/// For each frame of a list whether it is refused with 12, and the remembered time after it.
fn clock_of(list: &[Vec<u8>]) -> Vec<(bool, f64)> {
    let bytes = list.concat();
    let clock: Vec<(bool, f64)> = run(&bytes)
        .map(|(left, output)| (output.refusal == 12, left.time))
        .collect();
    assert_eq!(clock.len(), COUNT);
    clock
}

/// Frames refused with 12 come singly and some after another, and are few; late times are left for the end.
#[test]
fn a_clock_that_is_set_back_is_put_right() {
    for list in [scene_list(1, COUNT), fling_list(1, COUNT)] {
        let clock = clock_of(&list);
        let streaks = clock.split(|(is_back, _)| !is_back).map(<[_]>::len);
        let streaks: Vec<usize> = streaks.filter(|length| *length > 0).collect();
        assert!((1..=4).all(|length| streaks.contains(&length)));
        assert!(streaks.iter().all(|length| *length <= 20), "{streaks:?}");
        let met: usize = streaks.iter().sum();
        assert!((COUNT / 50..COUNT / 20).contains(&met), "{met}");
        let (_, late) = clock[COUNT / 16 * 15 - 1];
        assert!((1e3..1e5).contains(&late), "{late}");
    }
}

/// Mostly states that the frame is not before; each kind of remembered time is met.
#[test]
fn random_states_remember_every_kind_of_time() {
    let (mut random, frame) = (Random::new(3), list().bytes());
    let times: Vec<f64> = (0..4000)
        .map(|_| random_state(&mut random, &frame).time)
        .collect();
    let count = |test: fn(f64) -> bool| times.iter().filter(|time| test(**time)).count();
    assert!(count(|time| NOW < time) >= 200);
    assert!(count(|time| time <= NOW) >= 3000);
    assert!(count(|time| time == NOW) >= 200);
    assert!(count(|time| time == NOW.next_up()) >= 50);
    assert!(count(|time| time == NOW.next_down()) >= 50);
    assert!(count(|time| time < 0.0) >= 50);
    assert!(count(|time| time.to_bits() == 1 << 63) >= 20);
    assert!(count(|time| !time.is_finite()) >= 100);
}

/// After half of the frames refused with 12 there is a reset and the same frame, which is not refused with 12 then.
#[test]
fn lists_with_resets_send_refused_frames_again() {
    for list in [
        scenes_with_resets(1, COUNT),
        flings_with_resets(1, COUNT),
        half_flings_with_resets(1, COUNT),
    ] {
        let mut kept = Remembering::default();
        let (mut met, mut again, mut accepted) = (0, 0, 0);
        for (place, played) in list.iter().enumerate() {
            let Played::Frame(bytes) = played else {
                kept.reset();
                continue;
            };
            let refusal = kept.frame(bytes).refusal;
            accepted += u32::from(refusal == 0);
            if refusal == 12 {
                met += 1;
                let next = list.get(place + 1..place + 3);
                again += u32::from(next == Some(&[Played::Reset, played.clone()]));
            }
        }
        assert_eq!(list.len(), COUNT);
        assert!(met >= 500 && accepted >= 16_000, "{met} {accepted}");
        assert!(
            (3 * met..7 * met).contains(&(10 * again)),
            "{again} of {met}"
        );
    }
}

#[cfg(feature = "branches")]
#[test]
fn every_branch_of_the_clock_is_met() {
    use oracle::branches::{count_of, OF_CLOCK};
    let (mut random, mut kept) = (Random::new(2), Remembering::default());
    for played in scenes_with_resets(2, COUNT) {
        match played {
            Played::Frame(mut bytes) => {
                kept.frame(&bytes);
                let state = random_state(&mut random, &bytes);
                bytes.truncate([416, 415][random.below(2)]);
                state.refusal_of(&bytes);
            }
            Played::Reset => kept.reset(),
        }
    }
    for (branch, words) in OF_CLOCK {
        assert!(count_of(*branch) >= 10, "{words}: {}", count_of(*branch));
    }
}
