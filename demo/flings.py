#!/usr/bin/env python3
"""How many frames flings take until the list rests, asked of the library: flings.py LIBRARY.

A list of 400 rows of 20 points, 100 points high, stands on its first row and is given a velocity: below 0 into its start, above 0 along the
list. A line for each fling: decay_time, rubber_band, velocity in points per second, frames of a sixtieth of a second."""
import ctypes
import struct
import sys

import scene

ROWS = 400
END = ROWS * scene.ROW - scene.HEIGHT
DECAY_TIMES = [0.5, 1.0, 2.0]
STOP_DISTANCE = 1.0
VELOCITIES = range(-6000, 6001, 25)
LIMIT = 10_000
STATE_BYTES = 156


def list_frame(decay_time, rubber_band):
    """Nobody touches the list, and it does not stick to its end."""
    words = {25: 0, 37: decay_time, 38: STOP_DISTANCE, 39: rubber_band, 83: ROWS * scene.ROW}
    return scene.replaced(scene.frame(0), words)


def at_rest(library, frame):
    """The state of the list after its first frame, which has to be accepted and want no repaint."""
    state, out = ctypes.create_string_buffer(STATE_BYTES), ctypes.create_string_buffer(100)
    library.strakobud_fresh(state)
    refusal = library.strakobud_frame(state, frame, ctypes.c_size_t(len(frame)), out)
    if refusal or any(out.raw[96:]):
        sys.exit(f"the list does not rest before the fling: refusal {refusal}")
    return state.raw


def frames_until_rest(library, state, frame, velocity):
    """Of a state with that velocity on y, word 24."""
    flung = ctypes.create_string_buffer(scene.replaced(state, {24: float(velocity)}), STATE_BYTES)
    used = ctypes.create_string_buffer(4)
    run = struct.pack("<dI", 1 / scene.RATE, LIMIT)
    refusal = library.strakobud_settle(flung, frame, ctypes.c_size_t(len(frame)), run, used)
    frames = struct.unpack("<I", used.raw)[0]
    if refusal or frames == LIMIT:
        sys.exit(f"the list does not come to rest: refusal {refusal}, {frames} frames")
    return frames


def main():
    library = ctypes.CDLL(sys.argv[1])
    for decay_time in DECAY_TIMES:
        for rubber_band in (0, 1):
            frame = list_frame(decay_time, rubber_band)
            state = at_rest(library, frame)
            for velocity in VELOCITIES:
                print(decay_time, rubber_band, velocity, frames_until_rest(library, state, frame, velocity))


if __name__ == "__main__":
    main()
