//! What the library answers to wheel calls, judged by the law of which turns are taken.

use oracle::axis_calls::Wheeled;
use oracle::host_calls::turn_of;
use oracle::records::Reader;

use crate::tally::{Part, Tally};

/// Counts an accepted call, and a sentence of the law that its answer breaks as a difference; refused calls are outside the law.
pub fn judge(tally: &mut Tally, call: &[u8; 52], refusal: u32, out: &[u8; 16]) {
    let (0, Some(turn)) = (refusal, turn_of(call)) else {
        return;
    };
    let broken = match answer_of(out) {
        Some(wheeled) => turn.broken(&wheeled),
        None => Some("a flag is 0 or 1"),
    };
    tally.count(Part::WheelLaw, refusal, broken.is_none(), || {
        let sentence = broken.unwrap_or_default();
        format!("wheel {call:02x?}: library {out:02x?}, against the law: {sentence}")
    });
}

/// The answer of an accepted call; nothing where a flag is neither 0 nor 1.
fn answer_of(out: &[u8; 16]) -> Option<Wheeled> {
    let mut reader = Reader::of(out);
    Some(Wheeled {
        refusal: 0,
        offset: reader.number(),
        velocity: reader.number(),
        bounced: reader.flag()?,
        answer: reader.flag()?,
    })
}
