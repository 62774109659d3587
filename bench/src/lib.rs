//! One driver for every side: the same frames, no printing between them.

use std::hint::black_box;
use std::slice::ChunksExact;
use std::time::Instant;
use std::{env, fs};

/// A state's record.
pub type StateBytes = [u8; 156];

/// The record of what a frame puts out besides the state.
pub type OutBytes = [u8; 100];

const LENGTH: usize = 416;

/// The frames of a settling run.
const FRAMES: u32 = 1000;

/// `SIDE FILE COUNT`: runs that many frames of the file, over and over, on one state, and prints the nanoseconds, a sum over all
/// answers and one over the last state. Ahead of the file's first frame the state is reset, since the clock falls back there.
/// `SIDE FILE COUNT stack` prints the bytes of stack that the deepest of these calls took. With `flung` after these the list has a
/// velocity at the start.
pub fn drive(
    fresh: fn(&mut StateBytes),
    reset: fn(&mut StateBytes),
    frame: impl Fn(&mut StateBytes, &[u8], &mut OutBytes) -> u32,
) {
    let arguments: Vec<String> = env::args().collect();
    let [_, file, count, mode @ ..] = &arguments[..] else {
        panic!("usage: SIDE FILE COUNT [stack] [flung]")
    };
    let is_given = |word: &str| mode.iter().any(|given| given == word);
    let bytes = fs::read(file).expect("the frames are read");
    let count: usize = count.parse().expect("a count");
    let mut state = [0; 156];
    fresh(&mut state);
    if is_given("flung") {
        // word 24 of a state: 300 points per second on y
        state[92..96].copy_from_slice(&300_f32.to_le_bytes());
    }
    if !is_given("stack") {
        let begin = Instant::now();
        let sum = sum_of_answers(passes(&bytes, count), &mut state, reset, frame);
        // A whole number, since what writing out a fraction takes depends on its digits.
        let nanoseconds = begin.elapsed().as_nanos() as u64;
        println!("{nanoseconds} {sum:016x} {:016x}", sum_of(&state));
    } else {
        println!(
            "{}",
            deepest(passes(&bytes, count), &mut state, reset, frame)
        );
    }
}

/// The frames of each time through the file, the last time as many as are left.
fn passes(bytes: &[u8], count: usize) -> impl Iterator<Item = ChunksExact<'_, u8>> {
    let whole = bytes.len() / LENGTH;
    let pass = move |start| &bytes[..LENGTH * whole.min(count - start)];
    (0..count)
        .step_by(whole)
        .map(move |start| pass(start).chunks_exact(LENGTH))
}

/// The loop that is timed and counted, by itself, so that nothing else in the driver changes how it is compiled.
#[inline(never)]
fn sum_of_answers<'a>(
    passes: impl Iterator<Item = ChunksExact<'a, u8>>,
    state: &mut StateBytes,
    reset: fn(&mut StateBytes),
    frame: impl Fn(&mut StateBytes, &[u8], &mut OutBytes) -> u32,
) -> u64 {
    let (mut sum, mut out) = (0u64, [0; 100]);
    for frames in passes {
        reset(black_box(state));
        for bytes in frames {
            let refusal = frame(black_box(state), black_box(bytes), &mut out);
            sum = sum.wrapping_mul(31).wrapping_add(u64::from(refusal));
            sum = sum.wrapping_add(u64::from(state[4]) + u64::from(out[8]));
        }
    }
    sum
}

/// The most stack that one of the calls takes.
fn deepest<'a>(
    passes: impl Iterator<Item = ChunksExact<'a, u8>>,
    state: &mut StateBytes,
    reset: fn(&mut StateBytes),
    frame: impl Fn(&mut StateBytes, &[u8], &mut OutBytes) -> u32,
) -> usize {
    let (mut most, mut out) = (0, [0; 100]);
    for frames in passes {
        reset(state);
        for bytes in frames {
            most = most.max(depth_of(|| frame(state, bytes, &mut out)));
        }
    }
    most
}

fn sum_of(bytes: &[u8]) -> u64 {
    let add = |sum: u64, byte: &u8| sum.wrapping_mul(31).wrapping_add(u64::from(*byte));
    bytes.iter().fold(0, add)
}

/// One settling run by that call, in sixtieths of a second, which has to use all its frames.
pub fn run(settle: impl FnOnce(&[u8; 12], &mut [u8; 4]) -> u32) -> u32 {
    let (mut run, mut used) = ([0; 12], [0; 4]);
    run[..8].copy_from_slice(&(1.0 / 60.0_f64).to_le_bytes());
    run[8..].copy_from_slice(&FRAMES.to_le_bytes());
    let refusal = settle(&run, &mut used);
    assert_eq!(u32::from_le_bytes(used), FRAMES, "the run ended before");
    refusal
}

/// What the stack below a call is filled with.
const UNTOUCHED: u64 = 0x5eed_5eed_5eed_5eed;

/// How far below this function a call reaches: it leaves its marks in what was filled before it.
#[inline(never)]
pub fn depth_of(call: impl FnOnce() -> u32) -> usize {
    let here = stack_pointer();
    let filled = (here - (64 << 10)..here - 256).step_by(8);
    for place in filled.clone() {
        // The 64 KiB below the stack pointer belong to this thread's stack and hold nothing that is in use.
        unsafe { (place as *mut u64).write_volatile(UNTOUCHED) };
    }
    black_box(call());
    let is_touched = |place: &usize| unsafe { (*place as *const u64).read_volatile() } != UNTOUCHED;
    here - filled.clone().find(is_touched).unwrap_or(here)
}

#[inline(always)]
fn stack_pointer() -> usize {
    let pointer: usize;
    unsafe { std::arch::asm!("mov {}, rsp", out(reg) pointer, options(nomem, nostack)) };
    pointer & !7
}
