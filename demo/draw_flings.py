#!/usr/bin/env python3
"""Draws the lines of flings.py as SVG: draw_flings.py FLINGS > PICTURE.

Frames until the list rests over the velocity that it was flung with: a colour for each decay_time, wide and pale with rubber band off, thin
with it on."""
import math
import sys

from draw import polyline, text
from flings import END, ROWS, STOP_DISTANCE
from scene import RATE

WIDTH, HEIGHT = 960, 480
LEFT, RIGHT, TOP, BOTTOM = 64, 64, 64, 84
COLOURS = ["#06c", "#2a8", "#c60"]
STYLES = {0: 'stroke-width="6" stroke-opacity="0.35"', 1: 'stroke-width="1.6"'}
GREY = 'fill="#555"'
MIDDLE = f'text-anchor="middle" {GREY}'
RIGHT_ALIGNED = 'text-anchor="end"'
GRID = 5 * RATE


def read_flings(path):
    """By decay_time and rubber_band, the frames by velocity."""
    curves = {}
    for line in open(path):
        decay_time, rubber_band, velocity, frames = line.split()
        curves.setdefault(float(decay_time), {}).setdefault(int(rubber_band), {})[int(velocity)] = int(frames)
    return curves


def axes(at, fastest, top):
    """Frames on the left, seconds on the right, points per second below."""
    for frames in range(0, top + 1, GRID):
        (left, y), (right, _) = at(-fastest, frames), at(fastest, frames)
        yield polyline([(left, y), (right, y)], 'stroke="#ddd"')
        yield text(left - 8, y + 4, f"{frames:,}", f"{RIGHT_ALIGNED} {GREY}")
        yield text(right + 8, y + 4, f"{frames // RATE} s", GREY)
    for velocity in range(-fastest, fastest + 1, 1000):
        x, y = at(velocity, 0)
        yield polyline([(x, y), (x, y + 4)], 'stroke="#555"')
        yield text(x, y + 18, f"{velocity:,}".replace("-", "−"), MIDDLE)
    x, y = at(0, 0)
    yield text(x, y + 36, "velocity at the start, in points per second", MIDDLE)
    yield polyline([(x, y), (x, TOP - 4)], 'stroke="#bbb" stroke-dasharray="2 3"')
    yield text(x - 8, TOP - 10, "into the start of the list", f"{RIGHT_ALIGNED} {GREY}")
    yield text(x + 8, TOP - 10, f"along the list, {END:,.0f} points to its end", GREY)


def notes(at, decay_time, off, on, colour):
    """The curve's name, and the first velocity at which the rubber band takes a fling along the list."""
    x, y = at(min(off), off[min(off)])
    yield text(x, y - 8, f"decay_time {decay_time:g} s", f'fill="{colour}"')
    caught = [velocity for velocity in off if velocity > 0 and on[velocity] != off[velocity]]
    if caught:
        x, y = at(min(caught), (on[min(caught)] + off[min(caught)]) / 2)
        yield text(x - 10, y, f"reaches the end from {min(caught):,} on", f'{RIGHT_ALIGNED} fill="{colour}"')


def main():
    curves = read_flings(sys.argv[1])
    flings = [fling for bands in curves.values() for frames in bands.values() for fling in frames.items()]
    fastest = max(velocity for velocity, _ in flings)
    top = math.ceil(max(frames for _, frames in flings) / GRID) * GRID

    def at(velocity, frames):
        x = LEFT + (velocity + fastest) / (2 * fastest) * (WIDTH - LEFT - RIGHT)
        return x, HEIGHT - BOTTOM - frames / top * (HEIGHT - TOP - BOTTOM)

    out = [
        f'<svg xmlns="http://www.w3.org/2000/svg" viewBox="0 0 {WIDTH} {HEIGHT}" font-family="sans-serif" font-size="12">',
        f'<rect width="{WIDTH}" height="{HEIGHT}" fill="white"/>',
        text(LEFT, 22, f"A list of {ROWS} rows, its bar hidden, is flung from its first: frames until it rests, {RATE} a second", 'font-size="15"'),
        *axes(at, fastest, top),
    ]
    for (decay_time, bands), colour in zip(curves.items(), COLOURS, strict=True):
        for rubber_band, frames in bands.items():
            out.append(polyline([at(*fling) for fling in frames.items()], f'stroke="{colour}" {STYLES[rubber_band]}'))
        out.extend(notes(at, decay_time, bands[0], bands[1], colour))
    longest = max(frames for bands in curves.values() for velocity, frames in bands[1].items() if velocity < 0)
    x, y = at(-fastest / 2, longest)
    out.append(text(x, y - 8, f"rubber band on: bounces, at most {longest} frames", 'text-anchor="middle" fill="#333"'))
    legend = "thin: rubber band on; wide and pale: off, and the velocity decays also where the list stands at an end"
    out.append(text(LEFT, HEIGHT - 14, f"{legend}; stop_distance {STOP_DISTANCE:g} point", 'fill="#333"'))
    print("\n".join(out + ["</svg>"]))


if __name__ == "__main__":
    main()
