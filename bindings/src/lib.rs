//! The host library for Rust: the functions of include/strakobud.h, which documents them.

/// A state's record.
pub type StateBytes = [u8; 156];

/// The record of what a frame puts out besides the state.
pub type OutBytes = [u8; 100];

/// A maker's table, as loaded.
pub type TableBytes = [u8; 8200];

/// A settling run's increment and limit.
pub type RunBytes = [u8; 12];

/// The frames that a settling run used.
pub type UsedBytes = [u8; 4];

/// The length of one record of a drawer.
pub const DRAWER_RECORD_BYTES: usize = 168;

mod c {
    extern "C" {
        pub fn strakobud_fresh(state: *mut u8);
        pub fn strakobud_reset(state: *mut u8);
        pub fn strakobud_frame(state: *mut u8, frame: *const u8, len: usize, out: *mut u8) -> u32;
        pub fn strakobud_frame_by(
            state: *mut u8,
            frame: *const u8,
            len: usize,
            table: *const u8,
            out: *mut u8,
        ) -> u32;
        pub fn strakobud_bad_word(frame: *const u8, len: usize) -> u32;
        pub fn strakobud_settle(
            state: *mut u8,
            frame: *const u8,
            len: usize,
            run: *const u8,
            used: *mut u8,
        ) -> u32;
        pub fn strakobud_settle_by(
            state: *mut u8,
            frame: *const u8,
            len: usize,
            table: *const u8,
            run: *const u8,
            used: *mut u8,
        ) -> u32;
        pub fn strakobud_table_load(bytes: *const u8, len: usize, table: *mut u8) -> u32;
        pub fn strakobud_table_t(table: *mut u8);
        pub fn strakobud_offset(state: *const u8, out: *mut u8) -> u32;
        pub fn strakobud_drawer_lay(drawer: *mut u8, len: usize) -> u32;
        pub fn strakobud_drawer_save(drawer: *mut u8, len: usize, id: u64, state: *const u8)
            -> u32;
        pub fn strakobud_drawer_load(drawer: *const u8, len: usize, id: u64, state: *mut u8)
            -> u32;
        pub fn strakobud_drawer_forget(drawer: *mut u8, len: usize, id: u64) -> u32;
        pub fn strakobud_drag(call: *const u8, out: *mut u8) -> u32;
        pub fn strakobud_step(call: *const u8, out: *mut u8) -> u32;
        pub fn strakobud_step_by(call: *const u8, table: *const u8, out: *mut u8) -> u32;
        pub fn strakobud_wheel(call: *const u8, out: *mut u8) -> u32;
    }
}

// In each call the arrays have the lengths that the header names, and no other reference to those written lives.

pub fn fresh(state: &mut StateBytes) {
    unsafe { c::strakobud_fresh(state.as_mut_ptr()) }
}

pub fn reset(state: &mut StateBytes) {
    unsafe { c::strakobud_reset(state.as_mut_ptr()) }
}

pub fn frame(state: &mut StateBytes, frame: &[u8], out: &mut OutBytes) -> u32 {
    let (bytes, len) = (frame.as_ptr(), frame.len());
    unsafe { c::strakobud_frame(state.as_mut_ptr(), bytes, len, out.as_mut_ptr()) }
}

pub fn frame_by(
    state: &mut StateBytes,
    frame: &[u8],
    table: &TableBytes,
    out: &mut OutBytes,
) -> u32 {
    let (bytes, len, table) = (frame.as_ptr(), frame.len(), table.as_ptr());
    unsafe { c::strakobud_frame_by(state.as_mut_ptr(), bytes, len, table, out.as_mut_ptr()) }
}

pub fn bad_word(frame: &[u8]) -> u32 {
    unsafe { c::strakobud_bad_word(frame.as_ptr(), frame.len()) }
}

pub fn settle(state: &mut StateBytes, frame: &[u8], run: &RunBytes, used: &mut UsedBytes) -> u32 {
    let (bytes, len, run) = (frame.as_ptr(), frame.len(), run.as_ptr());
    unsafe { c::strakobud_settle(state.as_mut_ptr(), bytes, len, run, used.as_mut_ptr()) }
}

pub fn settle_by(
    state: &mut StateBytes,
    frame: &[u8],
    table: &TableBytes,
    run: &RunBytes,
    used: &mut UsedBytes,
) -> u32 {
    let (bytes, len, table, run) = (frame.as_ptr(), frame.len(), table.as_ptr(), run.as_ptr());
    let state = state.as_mut_ptr();
    unsafe { c::strakobud_settle_by(state, bytes, len, table, run, used.as_mut_ptr()) }
}

pub fn table_load(bytes: &[u8], table: &mut TableBytes) -> u32 {
    unsafe { c::strakobud_table_load(bytes.as_ptr(), bytes.len(), table.as_mut_ptr()) }
}

pub fn table_t(table: &mut TableBytes) {
    unsafe { c::strakobud_table_t(table.as_mut_ptr()) }
}

pub fn offset(state: &StateBytes, out: &mut [u8; 8]) -> u32 {
    unsafe { c::strakobud_offset(state.as_ptr(), out.as_mut_ptr()) }
}

pub fn drawer_lay(drawer: &mut [u8]) -> u32 {
    unsafe { c::strakobud_drawer_lay(drawer.as_mut_ptr(), drawer.len()) }
}

pub fn drawer_save(drawer: &mut [u8], id: u64, state: &StateBytes) -> u32 {
    let (bytes, len) = (drawer.as_mut_ptr(), drawer.len());
    unsafe { c::strakobud_drawer_save(bytes, len, id, state.as_ptr()) }
}

pub fn drawer_load(drawer: &[u8], id: u64, state: &mut StateBytes) -> u32 {
    let (bytes, len) = (drawer.as_ptr(), drawer.len());
    unsafe { c::strakobud_drawer_load(bytes, len, id, state.as_mut_ptr()) }
}

pub fn drawer_forget(drawer: &mut [u8], id: u64) -> u32 {
    unsafe { c::strakobud_drawer_forget(drawer.as_mut_ptr(), drawer.len(), id) }
}

pub fn drag(call: &[u8; 32], out: &mut [u8; 4]) -> u32 {
    unsafe { c::strakobud_drag(call.as_ptr(), out.as_mut_ptr()) }
}

pub fn step(call: &[u8; 40], out: &mut [u8; 12]) -> u32 {
    unsafe { c::strakobud_step(call.as_ptr(), out.as_mut_ptr()) }
}

pub fn step_by(call: &[u8; 40], table: &TableBytes, out: &mut [u8; 12]) -> u32 {
    unsafe { c::strakobud_step_by(call.as_ptr(), table.as_ptr(), out.as_mut_ptr()) }
}

pub fn wheel(call: &[u8; 52], out: &mut [u8; 16]) -> u32 {
    unsafe { c::strakobud_wheel(call.as_ptr(), out.as_mut_ptr()) }
}
