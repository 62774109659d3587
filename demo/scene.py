#!/usr/bin/env python3
"""A scene on a relay's panel, as frames of 416 bytes on standard output. It is generated, not recorded.

A list of events 100 points high sticks to its end while rows of 20 points arrive. Somebody flings it towards its first row
and reads while more rows arrive; flings it back against the end, where it rubber-bands; pulls it past the end and lets go.
Then the touch controller sends samples that are not numbers, and rows go on arriving. `scene.py --ends` prints the list's
end at each frame instead."""
import math
import struct
import sys

RATE = 60
HEIGHT, ROW = 100.0, 20.0
FIRST_ROWS = 8

# spans of seconds: rows arrive, four a second; what the finger and the touch controller do
ARRIVALS = [(0.0, 2.0), (2.5, 4.0), (6.0, 7.0), (9.0, 12.0)]
READING = (2.0, 2.3)
RETURN = (4.5, 4.8)
PULL = (7.25, 7.75)
STORM = (9.5, 11.0)
SECONDS = 12.0


def within(span, second):
    return span[0] <= second < span[1]


def rows_at(second):
    arrived = [4 * (min(second, last) - first) for first, last in ARRIVALS if first <= second]
    return FIRST_ROWS + int(sum(arrived))


def end_at(second):
    """The list's end: what the content has more than the panel shows."""
    return max(0.0, rows_at(second) * ROW - HEIGHT)


def pull_of(second):
    """Points that the finger moves in one frame; down is positive and shows earlier rows."""
    if within(READING, second):
        return 12.0
    if within(RETURN, second):
        return -14.0
    if within(PULL, second):
        return -4.0
    return 0.0


def touch_at(n):
    """Pointer delta and velocity, dragged, drag stopped."""
    second = n / RATE
    if within(STORM, second) and n % 4 != 0:
        return math.nan, math.nan, 1, 0
    pull, before = pull_of(second), pull_of((n - 1) / RATE)
    if pull != 0.0:
        return pull, pull * RATE, 1, 0
    if before != 0.0:
        return 0.0, before * RATE, 0, 1
    return 0.0, 0.0, 0, 0


def number(x):
    return struct.unpack("<I", struct.pack("<f", x))[0]


def time_words(second):
    return struct.unpack("<II", struct.pack("<d", second))


def replaced(record, words):
    """A frame or a state with these words, by number, in the place of its own."""
    record = bytearray(record)
    for at, value in words.items():
        struct.pack_into("<I", record, 4 * at - 4, value if isinstance(value, int) else number(value))
    return bytes(record)


def frame(n):
    """The 104 words of frame n; a word's number is its place in document 01's layout."""
    words = [0] * 105
    second = n / RATE
    delta, velocity, dragged, stopped = touch_at(n)

    def put(first, *values):
        for at, value in enumerate(values, first):
            words[at] = value if isinstance(value, int) else number(value)

    put(1, 0, 1)  # vertical only
    put(3, 1, 1, math.inf, math.inf, 64.0, 64.0)  # both shrinking
    put(20, 2)  # a drag always scrolls
    put(22, 1.0, 1.0, 0, 1)  # stick on y
    put(27, 1)  # floating bars
    put(37, 0.4, 1.0, 1)  # decay time, stop distance, rubber band
    put(40, 0.0, 0.0, 200.0, HEIGHT)
    put(44, 0.0, 0.0, 200.0, HEIGHT)
    put(48, 1, 1)  # enabled, touch
    put(51, 1.0 / RATE)
    put(52, *time_words(second))
    put(54, 1, 100.0, 50.0)  # the finger
    put(57, 0.0, delta, 0.0, velocity, dragged, stopped)
    put(82, 180.0, rows_at(second) * ROW)
    put(88, 1.0)
    return struct.pack("<104I", *words[1:])


def main():
    frames = range(int(SECONDS * RATE))
    if sys.argv[1:] == ["--ends"]:
        print("\n".join(str(end_at(n / RATE)) for n in frames))
    else:
        sys.stdout.buffer.write(b"".join(map(frame, frames)))


if __name__ == "__main__":
    main()
