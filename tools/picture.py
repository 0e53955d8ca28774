#!/usr/bin/env python3
"""Writes docs/frame.svg: the 64 positions of a frame, what each carries, and the frame of data 0 in them."""
import pathlib

DATA_0 = 0x0000800040003565
# kind, first position, last position, what stands below
FIELDS = [
    ("data", 0, 15, "data 0..15"),
    ("run", 16, 16, "run"),
    ("data", 17, 32, "data 16..31"),
    ("run", 33, 33, "run"),
    ("data", 34, 49, "data 32..47"),
    ("run", 50, 50, "run"),
    ("check", 51, 62, "check"),
    ("pad", 63, 63, "pad"),
]
COLOURS = {"data": "#cfe3f7", "run": "#f6b26b", "check": "#cfe8cf", "pad": "#d9c3e8"}
LEGEND = [
    ("data", "data: bit 0 is the highest of 48"),
    ("run", "run bit: the opposite of the bit before"),
    ("check", "check bits: the 63 positions are divisible by g"),
    ("pad", "pad: the opposite of position 62"),
]
CELL, LEFT, TOP, HIGH = 14, 16, 40, 26


def text(x, y, said, size=10, anchor="middle"):
    return f'<text x="{x}" y="{y}" font-size="{size}" text-anchor="{anchor}">{said}</text>'


def cells():
    for kind, first, last, below in FIELDS:
        for i in range(first, last + 1):
            x = LEFT + i * CELL
            yield f'<rect x="{x}" y="{TOP}" width="{CELL}" height="{HIGH}" fill="{COLOURS[kind]}" stroke="#555" stroke-width="0.6"/>'
            yield text(x + CELL / 2, TOP + 17, DATA_0 >> (63 - i) & 1, 11)
        middle = LEFT + (first + last + 1) * CELL / 2
        yield text(middle, TOP + HIGH + 15, below)
        if first == last:
            yield text(middle, TOP - 6, first, 9)
        else:
            yield text(LEFT + first * CELL + CELL / 2, TOP - 6, first, 9)
            yield text(LEFT + last * CELL + CELL / 2, TOP - 6, last, 9)


def legend():
    for k, (kind, said) in enumerate(LEGEND):
        x, y = LEFT + k % 2 * 450, TOP + HIGH + 34 + k // 2 * 20
        yield f'<rect x="{x}" y="{y}" width="{CELL}" height="12" fill="{COLOURS[kind]}" stroke="#555" stroke-width="0.6"/>'
        yield text(x + CELL + 8, y + 10, said, 11, "start")


def picture():
    wide, high = 2 * LEFT + 64 * CELL, TOP + HIGH + 80
    yield f'<svg xmlns="http://www.w3.org/2000/svg" viewBox="0 0 {wide} {high}" width="{wide}" height="{high}" font-family="sans-serif" fill="#222">'
    yield "<title>The 64 positions of a frame</title>"
    yield f'<rect width="{wide}" height="{high}" fill="#fff"/>'
    yield text(LEFT, 16, f"The frame of data 0, {DATA_0:016X}: position 0 is first on the line and the highest bit", 12, "start")
    yield from cells()
    yield from legend()
    yield "</svg>"


if __name__ == "__main__":
    docs = pathlib.Path(__file__).resolve().parent.parent / "docs"
    (docs / "frame.svg").write_text("\n".join(picture()) + "\n")
