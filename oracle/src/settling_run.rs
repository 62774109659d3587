//! Document 02's K1, "Frames until the list rests": one frame, again and again at later times.

use crate::branches::{met, met_if, Branch};
use crate::clock::Remembering;
use crate::frame_checks::{float, frame_refusal, time, word};

/// Document 02: "a limit of 0 or above 10,000".
pub const MOST_FRAMES: u32 = 10_000;

/// Document 02: "The answer carries the frames used .. and the state after them"; on a refusal, those before it.
#[derive(Clone, Copy, Debug, PartialEq)]
pub struct Settled {
    pub refusal: u32,
    pub used: u32,
    pub state: Remembering,
}

/// Document 02: "A run takes a state, a frame, an f64 time increment and a limit of frames".
pub fn settle(state: Remembering, bytes: &[u8], increment: f64, limit: u32) -> Settled {
    match refusal_up_front(Some(&state), bytes, increment, limit) {
        0 => frames_until_rest(state, bytes, increment, limit),
        refusal => Settled {
            refusal,
            used: 0,
            state,
        },
    }
}

/// The number by which no frame is run, or 0; no state stands for a record with a flag that is neither 0 nor 1.
pub fn refusal_up_front(
    state: Option<&Remembering>,
    bytes: &[u8],
    increment: f64,
    limit: u32,
) -> u32 {
    let of_frame = frame_refusal(bytes);
    if of_frame != 0 {
        met(UP_FRONT[of_frame as usize - 1]);
        return of_frame;
    }
    let Some(state) = state else {
        met(Branch::RunFlag6);
        return 6;
    };
    if state.refusal() != 0 {
        met(Branch::RunRefused6);
        return 6;
    }
    let grounds = grounds_of_9(bytes, increment, limit);
    if grounds.is_empty() {
        return 0;
    }
    met(Branch::RunRefused9);
    met_if(state.is_ahead_of(bytes), Branch::RunBefore12);
    // A ground is tried only where no other would do in its place.
    if let [only] = grounds[..] {
        met(only);
    }
    9
}

/// The frame's refusals from 1 to 5.
const UP_FRONT: [Branch; 5] = [
    Branch::RunRefused1,
    Branch::RunRefused2,
    Branch::RunRefused3,
    Branch::RunRefused4,
    Branch::RunRefused5,
];

/// Flags that are 1 where hand or program moves an axis: explicit offsets, a drag, its end, presses on the bars, scroll targets.
pub(crate) const MOVING_FLAGS: [(usize, Branch); 8] = [
    (15, Branch::OnlyWord15),
    (17, Branch::OnlyWord17),
    (61, Branch::OnlyWord61),
    (62, Branch::OnlyWord62),
    (74, Branch::OnlyWord74),
    (79, Branch::OnlyWord79),
    (91, Branch::OnlyWord91),
    (98, Branch::OnlyWord98),
];

/// The wheel's and the scroll delta, which move an axis unless they are 0.
pub(crate) const MOVING_NUMBERS: [(usize, Branch); 4] = [
    (64, Branch::OnlyWord64),
    (65, Branch::OnlyWord65),
    (86, Branch::OnlyWord86),
    (87, Branch::OnlyWord87),
];

/// Document 02's grounds, each that applies: the limit, the increment, and words that move an axis, "heeded or not".
fn grounds_of_9(bytes: &[u8], increment: f64, limit: u32) -> Vec<Branch> {
    let of_run = [
        (limit == 0, Branch::OnlyLimitZero),
        (limit > MOST_FRAMES, Branch::OnlyLimitAbove),
        (increment < 0.0, Branch::OnlyIncrementBelow),
        (increment > 1.0, Branch::OnlyIncrementAbove),
        (increment.is_nan(), Branch::OnlyIncrementNan),
    ];
    let flags = MOVING_FLAGS.map(|(flag, ground)| (word(bytes, flag) == 1, ground));
    // By value: both zeros are 0.
    let numbers = MOVING_NUMBERS.map(|(number, ground)| (float(bytes, number) != 0.0, ground));
    let all = of_run.into_iter().chain(flags).chain(numbers);
    all.filter(|(applies, _)| *applies)
        .map(|(_, ground)| ground)
        .collect()
}

/// Document 02: "ends at the first frame that wants no repaint, or at the limit"; what is handed over passed all up front. 12 is not among
/// that: it is the first frame's own, as 8 is any frame's.
pub fn frames_until_rest(state: Remembering, bytes: &[u8], increment: f64, limit: u32) -> Settled {
    let mut frame = bytes.to_vec();
    let mut settled = Settled {
        refusal: 0,
        used: 0,
        state,
    };
    while settled.used < limit {
        let output = settled.state.frame(&frame);
        if output.refusal != 0 {
            settled.refusal = output.refusal;
            met_inside(&settled);
            return settled;
        }
        settled.used += 1;
        if !output.repaint {
            met(Branch::RunRests);
            met_if(settled.used == limit, Branch::RunRestsAtLimit);
            return settled;
        }
        advance(&mut frame, increment);
    }
    met(Branch::RunAtLimit);
    settled
}

/// Document 02: "advances the time by the increment after each frame"; nothing else of the frame changes, `stable_dt` neither.
fn advance(frame: &mut [u8], increment: f64) {
    let later = time(frame) + increment;
    // Words 52 and 53, the low one first.
    frame[204..212].copy_from_slice(&later.to_le_bytes());
}

/// No other number comes out: time alone changes from frame to frame and does not fall, a state after a frame is finite, and no bar is
/// pressed.
fn met_inside(settled: &Settled) {
    met_if(settled.refusal == 3, Branch::RunInside3);
    let is_first = settled.used == 0;
    met_if(settled.refusal == 12 && is_first, Branch::RunFirst12);
    met_if(settled.refusal == 8 && is_first, Branch::RunFirst8);
    met_if(settled.refusal == 8 && !is_first, Branch::RunInside8);
}
