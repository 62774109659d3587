//! The calls of the host library on records of 32-bit little-endian words, under document 01's refusals.
//!
//! Each takes and leaves the bytes that the library's function of the same name does; a table that was loaded is taken as its entries.

use crate::axis_calls;
use crate::clock::{reset_record, Remembering, StateBytes};
use crate::frame_checks::{self, frame_refusal};
use crate::judge;
use crate::records::{write_output, OutBytes, Reader, Writer};
use crate::settling_run::{frames_until_rest, refusal_up_front};
use crate::tables::{self, Table, TableBytes};
use crate::wheel_law::Turn;

pub fn fresh(state: &mut StateBytes) {
    Remembering::from(judge::fresh()).write(state);
}

/// Clears the remembered time and nothing else.
pub fn reset(state: &mut StateBytes) {
    reset_record(state);
}

/// 0 or the refusal; on a refusal neither buffer changes.
pub fn frame(state: &mut StateBytes, frame: &[u8], out: &mut OutBytes) -> u32 {
    let Some(mut kept) = Remembering::read(state) else {
        // A damaged flag is 6, behind the frame's own numbers.
        return match frame_refusal(frame) {
            0 => 6,
            refusal => refusal,
        };
    };
    let output = kept.frame(frame);
    if output.refusal == 0 {
        kept.write(state);
        write_output(&output, out);
    }
    output.refusal
}

/// The same under a table.
pub fn frame_by(
    state: &mut StateBytes,
    bytes: &[u8],
    table: &'static Table,
    out: &mut OutBytes,
) -> u32 {
    tables::under(table, || frame(state, bytes, out))
}

/// The word that decides the frame's refusal of 2 to 5, or 0.
pub fn bad_word(frame: &[u8]) -> u32 {
    frame_checks::bad_word(frame)
}

/// A settling run's increment, low word first, and its limit.
pub type RunBytes = [u8; 12];

/// The frames that a settling run used.
pub type UsedBytes = [u8; 4];

/// 0 or the refusal; on one up front neither buffer changes, on one inside both hold what the frames before it led to.
pub fn settle(state: &mut StateBytes, frame: &[u8], run: &RunBytes, used: &mut UsedBytes) -> u32 {
    let mut reader = Reader::of(run);
    let (increment, limit) = (reader.double(), reader.word());
    let given = Remembering::read(state);
    let refusal = refusal_up_front(given.as_ref(), frame, increment, limit);
    let (0, Some(given)) = (refusal, given) else {
        return refusal;
    };
    let settled = frames_until_rest(given, frame, increment, limit);
    *used = settled.used.to_le_bytes();
    // Where no frame was used the record is the one given, with whatever its absent options hold.
    if settled.used > 0 {
        settled.state.write(state);
    }
    settled.refusal
}

/// The same under a table.
pub fn settle_by(
    state: &mut StateBytes,
    frame: &[u8],
    table: &'static Table,
    run: &RunBytes,
    used: &mut UsedBytes,
) -> u32 {
    tables::under(table, || settle(state, frame, run, used))
}

/// 0 or the refusal; on a refusal the table does not change.
pub fn table_load(bytes: &[u8], table: &mut TableBytes) -> u32 {
    match tables::load(bytes) {
        Ok(_) => {
            table.copy_from_slice(bytes);
            0
        }
        Err(refusal) => refusal,
    }
}

/// T itself.
pub fn table_t(table: &mut TableBytes) {
    *table = tables::t_bytes();
}

/// The shown offset.
pub fn offset(state: &StateBytes, out: &mut [u8; 8]) -> u32 {
    let Some(Remembering { egui, .. }) = Remembering::read(state) else {
        return 6;
    };
    let mut writer = Writer::on(out);
    for shown in judge::shown(&egui) {
        writer.number(shown);
    }
    0
}

pub fn drag(call: &[u8; 32], out: &mut [u8; 4]) -> u32 {
    out.copy_from_slice(&call[24..28]);
    let mut reader = Reader::of(call);
    let Some(axis) = reader.axis() else {
        return 2;
    };
    let (offset, delta) = (reader.number(), reader.number());
    let answer = axis_calls::drag(&axis, offset, delta);
    if answer.refusal == 0 {
        Writer::on(out).number(answer.offset);
    }
    answer.refusal
}

pub fn step(call: &[u8; 40], out: &mut [u8; 12]) -> u32 {
    out[..8].copy_from_slice(&call[24..32]);
    out[8..].fill(0);
    let mut reader = Reader::of(call);
    let axis = reader.axis();
    let (offset, velocity, dt) = (reader.number(), reader.number(), reader.number());
    let (Some(axis), Some(hold)) = (axis, reader.flag()) else {
        return 2;
    };
    let answer = axis_calls::step(&axis, offset, velocity, dt, hold);
    if answer.refusal == 0 {
        let mut writer = Writer::on(out);
        writer.number(answer.offset);
        writer.number(answer.velocity);
        writer.flag(answer.answer);
    }
    answer.refusal
}

/// The same under a table.
pub fn step_by(call: &[u8; 40], table: &'static Table, out: &mut [u8; 12]) -> u32 {
    tables::under(table, || step(call, out))
}

/// What a wheel call gives; nothing where a flag or a kind is outside its values.
pub fn turn_of(call: &[u8; 52]) -> Option<Turn> {
    let mut reader = Reader::of(call);
    Some(Turn {
        axis: reader.axis()?,
        offset: reader.number(),
        velocity: reader.number(),
        scroll: reader.scroll()?,
        bounced: reader.flag()?,
    })
}

pub fn wheel(call: &[u8; 52], out: &mut [u8; 16]) -> u32 {
    out[..8].copy_from_slice(&call[24..32]);
    out[8..12].copy_from_slice(&call[48..]);
    out[12..].fill(0);
    let Some(turn) = turn_of(call) else {
        return 2;
    };
    let answer = axis_calls::turned(&turn);
    if answer.refusal == 0 {
        let mut writer = Writer::on(out);
        writer.number(answer.offset);
        writer.number(answer.velocity);
        writer.flag(answer.bounced);
        writer.flag(answer.answer);
    }
    answer.refusal
}
