"""The library's side: replies, pictures, placed stops, and the rules of documents 01 and 02 that say where a pixel lies between them."""
import bisect
import math
import os
import struct
import subprocess
import sys
from fractions import Fraction

from shared import HERE

ROOT = HERE.parents[1]
ARCHIVE = os.path.join(os.environ.get("AVAREZHU_LIB") or ROOT / "target" / "staticlib", "libavarezhu.a")

SIDES = [(0, -1), (1, 0), (0, 1), (-1, 0)]
CORNERS = [(-1, -1), (1, -1), (-1, 1), (1, 1)]


def build():
    """The program of draw.c, in target/browser."""
    if not os.path.isfile(ARCHIVE):
        sys.exit(f"no archive {ARCHIVE}: run make first")
    folder = ROOT / "target" / "browser"
    folder.mkdir(parents=True, exist_ok=True)
    program = folder / "draw"
    compiler = [os.environ.get("CC") or "gcc", "-std=c99", "-Wall", "-Wextra", "-pedantic", "-Werror", "-O2"]
    subprocess.run([*compiler, "-I", ROOT / "include", HERE / "draw.c", ARCHIVE, "-o", program], check=True)
    return program


class Chart:
    """A recipe that the library drew. Positions and locations are in units, 64 to a pixel."""

    def __init__(self, width, height, gradient, stops, pixels):
        self.width, self.height, self.pixels = width, height, pixels
        words = struct.unpack_from("<4Ii2Ii2IIi2Ii", gradient)
        self.circle, self.repeating, self.direction, self.angle = words[1:5]
        self.center = words[10:12], words[13:15]
        self.written = [struct.unpack_from("<Ii", gradient, 68 + 16 * k) for k in range(words[0])]
        self.colors = [stops[4 + 8 * k : 8 + 8 * k] for k in range(stops[0])]
        self.positions = [struct.unpack_from("<i", stops, 8 + 8 * k)[0] for k in range(stops[0])]
        self.shared = {a for a, b in zip(self.positions, self.positions[1:]) if a == b}
        if self.repeating:
            # Where a period ends the next one begins: the last stop of one and the first of the other share that place.
            self.shared |= {self.positions[0], self.positions[-1]}

    def vector(self):
        """The direction of a line."""
        if self.direction < 4:
            return SIDES[self.direction]
        if self.direction < 8:
            x, y = CORNERS[self.direction - 4]
            return x * self.height, y * self.width
        turn = math.radians(self.angle / 1000)
        return round(16384 * math.sin(turn)), round(-16384 * math.cos(turn))

    def locations(self):
        """The location of each pixel, row by row."""
        return self.in_circle() if self.circle else self.on_line()

    def on_line(self):
        (x, y), w, h = self.vector(), self.width, self.height
        n, reach = x * x + y * y, w * abs(x) + h * abs(y)
        for j in range(h):
            start = (1 - w) * x + (2 * j + 1 - h) * y + reach
            for i in range(w):
                yield math.isqrt((32 * (start + 2 * i * x)) ** 2 // n)

    def in_circle(self):
        (x_unit, x), (y_unit, y) = self.center
        x, y = nearest(units(x_unit, x, 64 * self.width)), nearest(units(y_unit, y, 64 * self.height))
        for j in range(self.height):
            for i in range(self.width):
                yield math.isqrt((64 * i + 32 - x) ** 2 + (64 * j + 32 - y) ** 2)

    def one_color(self, positions=None):
        """Whether the picture has the average color: the gradient repeats, with a period of 0."""
        positions = positions or self.positions
        return self.repeating and positions[0] == positions[-1]

    def moved(self, location, positions=None):
        """The location by which a pixel is colored: where the gradient repeats, from the first stop up to the last."""
        positions = positions or self.positions
        if not self.repeating or self.one_color(positions):
            return location
        first, last = positions[0], positions[-1]
        return first + (location - first) % (last - first)

    def around(self, location, positions=None):
        """The stops on both sides of a location, by their numbers; the same one twice where only one counts."""
        positions = positions or self.positions
        above = bisect.bisect_right(positions, location)
        return max(above - 1, 0), min(above, len(positions) - 1)

    def color(self, location, positions):
        """The four exact channels of the color at a location, with the stops at these positions."""
        if self.one_color(positions):
            return self.average()
        location = self.moved(location, positions)
        low, high = self.around(location, positions)
        a, b = positions[low], positions[high]
        share = Fraction(location - a) / (b - a) if low != high and a <= location else Fraction(0)
        first, second = premultiplied(self.colors[low]), premultiplied(self.colors[high])
        return [p + (q - p) * share for p, q in zip(first, second)]

    def average(self):
        """The average color with equally spaced stops: of two neighbors both count, each with half of their distance."""
        colors = [premultiplied(color) for color in self.colors]
        doubled = colors[0], *(color for color in colors[1:-1] for _ in range(2)), colors[-1]
        return [sum(channel) / len(doubled) for channel in zip(*doubled)]

    def before_rounding(self, length):
        """The place of each stop before any rounding, on a line of this length."""
        exact = [units(unit, number, length) if unit else None for unit, number in self.written]
        exact[0] = Fraction(0) if exact[0] is None else exact[0]
        exact[-1] = Fraction(length) if exact[-1] is None else exact[-1]
        placed = [k for k, spot in enumerate(exact) if spot is not None]
        for before, k in zip(placed, placed[1:]):
            exact[k] = max(exact[k], exact[before])
            for m in range(before + 1, k):
                exact[m] = exact[before] + (exact[k] - exact[before]) * Fraction(m - before, k - before)
        return exact


def premultiplied(color):
    *channels, alpha = color
    return [Fraction(channel * alpha, 255) for channel in channels] + [Fraction(alpha)]


def units(unit, thousandths, whole):
    """A length, or a percentage of a whole in units, without rounding."""
    return Fraction(thousandths * 64, 1000) if unit == 1 else Fraction(thousandths * whole, 100000)


def nearest(number):
    """The nearest whole number, halves toward plus infinity."""
    return math.floor(number + Fraction(1, 2))


def ask(program, recipes, texts):
    """The chart of each recipe, or its reply if it was refused, and the reply to each text."""
    requests = [(width, height, text.encode()) for width, height, text in recipes]
    requests += [(0, 0, text.encode()) for text in texts]
    sent = b"".join(struct.pack("=3I", w, h, len(text)) + text for w, h, text in requests)
    told = subprocess.run([program], input=sent, stdout=subprocess.PIPE, check=True).stdout
    answers, at = [], 0

    def take(length):
        nonlocal at
        at += length
        return told[at - length : at]

    for width, height, _ in requests:
        (reply,) = struct.unpack("=I", take(4))
        drawn = width and not reply
        answers.append(Chart(width, height, take(320), take(132), take(4 * width * height)) if drawn else reply)
    if at != len(told):
        sys.exit("the library's program said more than was asked")
    return answers[: len(recipes)], answers[len(recipes) :]
