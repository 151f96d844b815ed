#!/usr/bin/env python3
"""The lines that the program `charts` prints, found from the rules of documents 01 and 02 alone.

Reading is that of tests/reading/independent.py. Everything after it, the gradient line, the placing of stops and the colors, is written here
once more, with Python's whole numbers and fractions.

    independent.py                  prints the lines
    independent.py --compare FILE   compares them with a file
"""
import math
import re
import sys
from fractions import Fraction
from pathlib import Path

sys.path.insert(0, str(Path(__file__).parents[1] / "reading"))
from independent import read  # noqa: E402

# width, height, length of the buffer, text
CHARTS = [
    (4, 1, 20, "linear-gradient(to right, black, white)"),
    (2, 1, 8, "linear-gradient(to right, red, transparent)"),
    (3, 4, 50, "linear-gradient(to top right, black, white)"),
    (1, 16, 64, "linear-gradient(red 40%, white, black, blue)"),
    (5, 3, 60, "linear-gradient(to left, red -50%, white, blue)"),
    (4, 4, 64, "linear-gradient(200.25deg, red 2px, white 0px, #00f8 4px)"),
    (1, 1, 4, "radial-gradient(circle at 0.5px 0.5px, red -50px, yellow 100px)"),
    (4, 4, 64, "radial-gradient(circle closest-side at 30% 40%, red, lime 1px, blue 1px, #1234)"),
    (1, 1, 4, "linear-gradient(to right, black 33.333%, white 66.667%)"),
    (3, 4, 48, "linear-gradient(to top right, black -50%, red, white 50%)"),
    (2, 2, 16, "radial-gradient(circle 0.995px at 33.333% 0.01px, red, blue)"),
    (0, 1, 8, "linear-gradient(red, blue)"),
    (1, 2049, 8, "linear-gradient(red, blue)"),
    (2, 2, 15, "linear-gradient(red, blue)"),
    (1, 1, 0, "linear-gradient(red, blue)"),
    (1, 1, 6, "linear-gradient(red, blue"),
    (1, 1, 6, "linear-gradient(45.1deg, red, blue)"),
]

# width, height, first row, end of the rows, length of the buffer, text
SLANTED = "linear-gradient(to top right, black, white)"
TEXT = "linear-gradient(red, blue)"
STRIPS = [
    (3, 4, 0, 1, 12, SLANTED),
    (3, 4, 1, 3, 26, SLANTED),
    (3, 4, 3, 4, 12, SLANTED),
    (3, 4, 0, 4, 50, SLANTED),
    (1, 16, 6, 14, 32, "linear-gradient(red 40%, white, black, blue)"),
    (5, 3, 2, 3, 24, "linear-gradient(to left, red -50%, white, blue)"),
    (4, 4, 2, 4, 32, "radial-gradient(circle closest-side at 30% 40%, red, lime 1px, blue 1px, #1234)"),
    (2, 2000, 999, 1001, 16, "radial-gradient(circle, red, blue 2px)"),
    (2, 2, 1, 1, 8, TEXT),
    (2, 2, 1, 3, 16, TEXT),
    (2, 2, 2**64 - 1, 1, 8, TEXT),
    (2, 2, 0, 2**64 - 1, 8, TEXT),
    (2, 2, 1, 2, 7, TEXT),
    (0, 2, 1, 1, 8, TEXT),
    (2, 2, 1, 1, 0, TEXT),
    (2, 2, 1, 1, 8, TEXT[:-1]),
    (2, 2, 1, 2, 7, TEXT[:-1]),
    (2, 2, 1, 2, 9, TEXT[:-1]),
]

# As CHARTS: gradients that repeat.
REPEATING = [
    (8, 1, 32, "repeating-linear-gradient(to right, black, white 4px)"),
    (8, 1, 32, "repeating-linear-gradient(to right, red -3px, blue -1px)"),
    (1, 8, 32, "repeating-linear-gradient(red -1.5px, lime 1px, blue 2.5px)"),
    (4, 4, 64, "repeating-linear-gradient(45deg, black, white 1px)"),
    (6, 2, 48, "repeating-linear-gradient(to right, red, lime 0.008px, blue 0.016px)"),
    (4, 4, 64, "repeating-linear-gradient(to bottom right, red, blue 0.016px, white 0.031px)"),
    (4, 2, 36, "repeating-linear-gradient(red 0, white 0, blue 0)"),
    (2, 2, 16, "repeating-radial-gradient(circle at 1px 1px, red 7px, #0f08 5px, transparent 2px)"),
    (3, 3, 36, "repeating-radial-gradient(0px at 1.5px 1.5px, white, #123, #4567)"),
    (4, 4, 64, "repeating-radial-gradient(circle at 0 0, black, white 2px)"),
    (4, 4, 64, "repeating-radial-gradient(circle closest-side, red -30%, #00f8 1px, lime 90%)"),
    (4, 4, 64, "repeating-radial-gradient(1px, aqua, yellow)"),
    (8, 1, 32, "repeating-linear-gradient(to left, #f00 50%, #f00 75%, #00f 75%, #00f)"),
    (16, 1, 64, "repeating-linear-gradient(to right, red 100px, transparent 102px, blue 105px)"),
    (8, 1, 40, "repeating-linear-gradient(to right, #ff000080, #00ff0000 1.5px, #0000ff40 3px)"),
    (1, 16, 64, "REPEATING-LINEAR-GRADIENT(0DEG, #012 -40px, #fed 60px)"),
    (4, 4, 64, "repeating-linear-gradient(200.25deg, red 2px, white 0px, #00f8 4px)"),
    (2, 1, 8, "repeating-linear-gradient(to right, #000, #fff .5px)"),
    (3, 1, 12, "repeating-linear-gradient(to right, #000 -.5px, #fff)"),
    (1, 1, 6, "repeating-linear-gradient(red)"),
    (1, 1, 6, "repeating-radial-gradient(red, blue)"),
    (1, 1, 6, "repeating -linear-gradient(red, blue)"),
    (1, 1, 6, "repeating-linear-gradient(45.1deg, red, blue 5px)"),
    (2, 2, 15, "repeating-linear-gradient(red, blue)"),
]

# As STRIPS.
REPEATING_STRIPS = [
    (3, 4, 1, 3, 26, "repeating-linear-gradient(to top right, black, white 1.5px)"),
    (1, 16, 6, 14, 32, "repeating-linear-gradient(red -40%, white, blue 10%)"),
    (4, 4, 2, 4, 32, "repeating-radial-gradient(circle closest-side at 30% 40%, red, lime .5px, blue .5px, #1234 1px)"),
    (2, 2000, 999, 1001, 16, "repeating-radial-gradient(circle, red, blue 2px)"),
    (2, 2, 1, 2, 8, "repeating-linear-gradient(red 3px, white 3px, transparent 3px)"),
    (2, 2, 1, 1, 8, "repeating-linear-gradient(red, blue)"),
]

# What the documents themselves say of four of them (P1, P2, P9 and T-01's average): the bytes from the start on.
STATED = {
    CHARTS[0]: [32, 32, 32, 255, 96, 96, 96, 255, 159, 159, 159, 255, 223, 223, 223, 255],
    CHARTS[1]: [191, 0, 0, 191, 64, 0, 0, 64],
    CHARTS[6]: [255, 85, 0, 255],
    REPEATING[6]: [191, 128, 191, 255] * 8,
}

SIDES = {"top": (0, -1), "right": (1, 0), "bottom": (0, 1), "left": (-1, 0)}


def nearest(number):
    """The nearest whole number, halves toward plus infinity."""
    below = math.floor(number)
    return below + 1 if number - below >= Fraction(1, 2) else below


def units(word, whole):
    """A written length or percentage in 64ths of a pixel; percentages are of a whole number of them."""
    amount = Fraction(word.rstrip("px%"))
    return nearest(amount * whole / 100 if word.endswith("%") else amount * 64)


class Linear:
    def __init__(self, words, width, height):
        self.box = (width, height)
        self.vector = self.direction(words)
        x, y = self.vector
        self.norm = x * x + y * y
        self.reach = width * abs(x) + height * abs(y)
        self.length = math.isqrt((64 * self.reach) ** 2 // self.norm)

    def direction(self, words):
        if words[0].endswith("deg"):
            angle = math.radians(float(words[0][:-3]))
            return round(16384 * math.sin(angle)), round(-16384 * math.cos(angle))
        if len(words) == 2:
            return SIDES[words[1]]
        (_, down), (across, _) = SIDES[words[1]], SIDES[words[2]]
        return across * self.box[1], down * self.box[0]

    def location(self, i, j):
        (x, y), (width, height) = self.vector, self.box
        twice = (2 * i + 1 - width) * x + (2 * j + 1 - height) * y + self.reach
        return math.isqrt((32 * twice) ** 2 // self.norm)


class Circle:
    def __init__(self, words, width, height):
        size, _, *center = words
        self.center = [units(word, 64 * pixels) for word, pixels in zip(center, (width, height))]
        sides = [(abs(c), abs(64 * pixels - c)) for c, pixels in zip(self.center, (width, height))]
        extents = {
            "closest-side": min(map(min, sides)),
            "farthest-side": max(map(max, sides)),
            "closest-corner": math.isqrt(sum(min(pair) ** 2 for pair in sides)),
            "farthest-corner": math.isqrt(sum(max(pair) ** 2 for pair in sides)),
        }
        self.length = extents[size] if size in extents else units(size, 0)

    def location(self, i, j):
        return math.isqrt((64 * i + 32 - self.center[0]) ** 2 + (64 * j + 32 - self.center[1]) ** 2)


def place(written, length):
    spots = [units(word, length) if word else None for word in written]
    spots[0] = 0 if spots[0] is None else spots[0]
    spots[-1] = length if spots[-1] is None else spots[-1]
    placed = [k for k, spot in enumerate(spots) if spot is not None]
    for k in placed:
        spots[k] = max(spots[m] for m in placed if m <= k)
    for a, b in zip(placed, placed[1:]):
        for k in range(a + 1, b):
            spots[k] = nearest(spots[a] + Fraction((spots[b] - spots[a]) * (k - a), b - a))
    return spots


def pixel(stops, s):
    """Four bytes; a stop is its position and its four premultiplied channels, 255 times too large."""
    reached = [k for k, (position, _) in enumerate(stops) if position <= s]
    if not reached or reached[-1] == len(stops) - 1:
        channels = [Fraction(p, 255) for p in stops[reached[-1] if reached else 0][1]]
    else:
        (a, p), (b, q) = stops[reached[-1]], stops[reached[-1] + 1]
        channels = [Fraction(u * (b - s) + v * (s - a), 255 * (b - a)) for u, v in zip(p, q)]
    return [nearest(channel) for channel in channels]


def moved(stops, s):
    """A location, moved by whole periods until it lies from the first stop up to, not including, the last."""
    first, last = stops[0][0], stops[-1][0]
    return first + (s - first) % (last - first)


def average(stops):
    """Four bytes: document 003's average color of a gradient, its stops equally spaced on a line of length 1."""
    total = [Fraction(0)] * 4
    weight = Fraction(1, len(stops) - 1) / 2
    for pair in zip(stops, stops[1:]):
        for _, channels in pair:
            total = [t + weight * Fraction(p, 255) for t, p in zip(total, channels)]
    return [nearest(channel) for channel in total]


def premultiplied(digits):
    *color, alpha = bytes.fromhex(digits)
    return [channel * alpha for channel in color] + [255 * alpha]


def rows(line, width, height, first, end):
    head, *stops = line[2:].split(" | ")
    repeating, head = head.startswith("repeating "), head.removeprefix("repeating ")
    kind, *words = head.split()
    shape = (Linear if kind == "linear" else Circle)(words, width, height)
    written = [(stop.split() + [None])[:2] for stop in stops]
    placed = place([position for _, position in written], shape.length)
    stops = [(position, premultiplied(color[1:])) for position, (color, _) in zip(placed, written)]
    if repeating and placed[0] == placed[-1]:
        return average(stops) * width * (end - first)
    where = [shape.location(i, j) for j in range(first, end) for i in range(width)]
    return [byte for s in where for byte in pixel(stops, moved(stops, s) if repeating else s)]


def draw(width, height, first, end, room, text):
    """The reply and the bytes left in a buffer."""
    if not (1 <= width <= 2048 and 1 <= height <= 2048):
        return 1, [0] * room
    if not first < end <= height:
        return 8, [0] * room
    if room < 4 * width * (end - first):
        return 2, [0] * room
    line = read(text.encode())
    if not line.startswith("0 "):
        return int(line[0]), [0] * room
    drawn = rows(line, width, height, first, end)
    return 0, drawn + [0] * (room - len(drawn))


def whole(charts):
    for chart in charts:
        width, height, room, text = chart
        reply, left = draw(width, height, 0, height, room, text)
        stated = STATED.get(chart, [])
        assert left[: len(stated)] == stated, f"{text} is not what the documents say"
        yield f"{width}x{height} in {room} {text}"
        yield f"{reply}:" + "".join(f" {byte}" for byte in left)


def cut(strips):
    for width, height, first, end, room, text in strips:
        reply, left = draw(width, height, first, end, room, text)
        yield f"rows {first} up to {end} of {width}x{height} in {room} {text}"
        yield f"{reply}:" + "".join(f" {byte}" for byte in left)


def lines():
    yield from whole(CHARTS)
    yield from cut(STRIPS)
    yield from whole(REPEATING)
    yield from cut(REPEATING_STRIPS)


def main():
    found = list(lines())
    if sys.argv[1:2] != ["--compare"]:
        print("\n".join(found))
        return 0
    expected = Path(sys.argv[2]).read_text().splitlines()
    differing = [(a, b) for a, b in zip(found, expected) if a != b]
    for a, b in differing:
        print(f"from the rules: {a}\nin the file:    {b}")
    if differing or len(found) != len(expected):
        print(f"drawing: {len(differing)} lines differ; {len(found)} lines from the rules, {len(expected)} in the file")
        return 1
    print(f"drawing: {len(CHARTS + REPEATING)} charts and {len(STRIPS + REPEATING_STRIPS)} strips agree")
    return 0


if __name__ == "__main__":
    sys.exit(main())
