"""Columns and rows of one color, as wholes.

The library's byte must be within 1/2 of the exact color, on every line and in every channel.

A browser may dither: the pixels of such a line are then of two levels around the color. Their mean must be within 3/8 of the exact color
(Chromium's pattern keeps it within 0.34) and within 1/2 + 1/16 of the library's byte.

A browser that does not dither rounds, as the library does, and may round a color near a half the other way. So where a line has one level
and it is not the library's byte, it must be within 1/2 + 1/8 of the exact color. (Firefox drifts along a row: its colors are up to 0.08
levels off after 200 pixels.)

Beside a stop that the grid of 1/64 px moved there are two exact colors: the library's is for the stop on the grid, a browser's for the stop
as it is written. There each is judged by its own, and a mean is not compared with the library's byte. No stop may be moved further than
rounding to the nearest unit can: half a unit, or one where a stop without a position lies between two that are rounded too.

Where a gradient repeats, the stops on the grid are repeated with their period, those as they are written with theirs.
"""
from fractions import Fraction

from pixels import kind
from shared import departures

HALF = Fraction(1, 2)
DITHERED = Fraction(3, 8)
ALIKE = HALF + Fraction(1, 16)
ROUNDED = HALF + Fraction(1, 8)
LEAST = 8  # patterns of dithering repeat after 8 pixels; fewer have no mean to speak of


def constant(chart):
    """The lines of one color, each as its location and its pixels' numbers, and the length of the gradient line in units."""
    if chart.circle or 0 not in chart.vector():
        return [], 0
    where, w, h = list(chart.locations()), chart.width, chart.height
    columns = chart.vector()[1] == 0
    found = [range(i, w * h, w) for i in range(w)] if columns else [range(j * w, j * w + w) for j in range(h)]
    whole = [(where[line[0]], line) for line in found if len(line) >= LEAST]
    return [(spot, line) for spot, line in whole if kind(chart, spot) is None], 64 * (w if columns else h)


class Score:
    def __init__(self):
        self.lines = self.moved = self.dithered = self.rounded = 0
        self.by_grid = self.from_byte = self.from_written = self.from_color = Fraction(0)

    def add(self, levels, byte, on_grid, as_written):
        """Judges one channel of a line."""
        mean = Fraction(sum(levels), len(levels))
        self.by_grid = max(self.by_grid, abs(on_grid - as_written))
        if abs(byte - on_grid) > HALF:
            return False
        if min(levels) != max(levels):
            self.dithered += 1
            return self.dithering(mean, byte if on_grid == as_written else None, as_written)
        if mean == byte:
            return True
        self.rounded += 1
        self.from_color = max(self.from_color, abs(mean - as_written))
        return abs(mean - as_written) <= ROUNDED

    def dithering(self, mean, byte, color):
        from_color, from_byte = abs(mean - color), abs(mean - byte) if byte is not None else 0
        self.from_written, self.from_byte = max(self.from_written, from_color), max(self.from_byte, from_byte)
        return from_color <= DITHERED and from_byte <= ALIKE

    def __str__(self):
        return (
            f"{self.lines} columns and rows of one color checked; the grid moved the color of {self.moved}, by at most {float(self.by_grid):.4f}\n"
            f"  channels that are dithered: {self.dithered}, means at most {float(self.from_written):.4f} from the exact color, and where the grid"
            f" moved nothing {float(self.from_byte):.4f} from the library's byte\n"
            f"  rounded to another byte: {self.rounded}, the browser's at most {float(self.from_color):.4f} from the exact color"
        )


def misplaced(chart, written):
    """The stops that the grid moved too far."""
    for k, (unit, _) in enumerate(chart.written):
        if abs(chart.positions[k] - written[k]) > (HALF if unit else 1):
            yield f"stop {k + 1} at {chart.positions[k]} units, before rounding {float(written[k])}"


def judge(chart, picture, score):
    """The stops and lines of one picture that break the rule."""
    found, length = constant(chart)
    written = chart.before_rounding(length) if found else []
    yield from misplaced(chart, written) if found else []
    for location, line in found:
        on_grid, as_written = chart.color(location, chart.positions), chart.color(location, written)
        score.lines += 1
        score.moved += on_grid != as_written
        for channel in range(4):
            levels, byte = [picture[4 * n + channel] for n in line], chart.pixels[4 * line[0] + channel]
            if not score.add(levels, byte, on_grid[channel], as_written[channel]):
                ours, theirs = float(on_grid[channel]), float(as_written[channel])
                said = f"the library {byte} for {ours}, the browser's mean {sum(levels) / len(levels)} for {theirs}"
                yield f"channel {channel} at {location} units: {said}"


def compare(recipes, charts, seen):
    listed, faults = departures(), []
    print()
    for name, (facts, pictures) in seen.items():
        score = Score()
        for recipe, chart, picture in zip(recipes, charts, pictures):
            if (name, recipe) not in listed:
                faults += [f"{name}: {recipe}: {fault}" for fault in judge(chart, picture, score)]
        print(f"{facts['browser']}: {score}")
    return faults
