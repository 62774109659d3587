#!/usr/bin/env python3
"""Draws a listing of `frames` as SVG: draw.py LISTING ENDS > PICTURE.

The stored offset of each line over the frames, the list's end as the scene knows it, and each refused frame as a mark with its
number."""
import struct
import sys

WIDTH, HEIGHT = 960, 420
LEFT, RIGHT, TOP, BOTTOM = 64, 20, 48, 48
NOTES = [(0, "rows arrive"), (120, "fling"), (270, "fling back"), (360, "rows"), (435, "pull past the end"), (570, "not numbers")]


def read_listing(path):
    """(refusal, stored offset on y) of each line."""
    lines = [line.split() for line in open(path)]
    return [(int(f[0]), struct.unpack(">f", bytes.fromhex(f[2]))[0]) for f in lines]


def polyline(points, style):
    text = " ".join(f"{x:.1f},{y:.1f}" for x, y in points)
    return f'<polyline points="{text}" fill="none" {style}/>'


def text(x, y, words, style=""):
    return f'<text x="{x:.1f}" y="{y:.1f}" {style}>{words}</text>'


def main():
    listing = read_listing(sys.argv[1])
    ends = [float(line) for line in open(sys.argv[2])]
    offsets = [offset for _, offset in listing]
    low, high = min(0.0, *offsets), max(ends + offsets) * 1.05

    def at(n, offset):
        x = LEFT + n / len(listing) * (WIDTH - LEFT - RIGHT)
        return x, HEIGHT - BOTTOM - (offset - low) / (high - low) * (HEIGHT - TOP - BOTTOM)

    out = [
        f'<svg xmlns="http://www.w3.org/2000/svg" viewBox="0 0 {WIDTH} {HEIGHT}" font-family="sans-serif" font-size="12">',
        f'<rect width="{WIDTH}" height="{HEIGHT}" fill="white"/>',
        text(LEFT, 20, "A relay's event list: where it stands, frame by frame", 'font-size="15"'),
    ]
    for value in range(0, int(high), 100):
        x, y = at(0, value)
        out.append(polyline([(x, y), (WIDTH - RIGHT, y)], 'stroke="#ddd"'))
        out.append(text(x - 8, y + 4, value, 'text-anchor="end" fill="#555"'))
    for n, note in NOTES:
        x, y = at(n, low)
        out.append(polyline([(x, y), (x, TOP - 4)], 'stroke="#bbb" stroke-dasharray="2 3"'))
        out.append(text(x + 3, TOP - 6, note, 'fill="#555"'))
    out.append(polyline([at(n, end) for n, end in enumerate(ends)], 'stroke="#999" stroke-width="5" stroke-opacity="0.45"'))
    out.append(polyline([at(n, offset) for n, (_, offset) in enumerate(listing)], 'stroke="#06c" stroke-width="1.6"'))
    for n, (refusal, offset) in enumerate(listing):
        if refusal:
            x, y = at(n, offset)
            out.append(f'<circle cx="{x:.1f}" cy="{y:.1f}" r="2" fill="#c00"><title>frame {n + 1}: refused with {refusal}</title></circle>')
    for refusal in sorted({refusal for refusal, _ in listing if refusal}):
        marked = [n for n, (r, _) in enumerate(listing) if r == refusal]
        x, y = at(marked[len(marked) // 2], listing[marked[0]][1])
        out.append(text(x, y + 34, f"refused with {refusal}: {len(marked)} frames", 'text-anchor="middle" fill="#c00"'))
    legend = HEIGHT - 12
    out.append(text(LEFT, legend, "blue: the stored offset in points; grey: the list's end; red: a refused frame; across: frames, 60 a second", 'fill="#333"'))
    print("\n".join(out + ["</svg>"]))


if __name__ == "__main__":
    main()
