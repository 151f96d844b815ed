"""Pixels, one by one, and the table."""
from collections import Counter

from shared import departures

COLUMNS = ["equal", "1 apart", "further", "close", "edge", "departs"]


def kind(chart, location):
    """Why a pixel is left out, or None: near two stops in one place, or between stops that are less than 8 px apart.

    Where the gradient repeats these are its repeated stops. One color has no place that matters.
    """
    if chart.one_color():
        return None
    location = chart.moved(location)
    if any(abs(location - place) < 32 for place in chart.shared):
        return "edge"
    low, high = chart.around(location)
    if low != high and chart.positions[low] <= location and chart.positions[high] - chart.positions[low] < 512:
        return "close"
    return None


def kinds(chart):
    """Of each pixel, row by row."""
    known = {}
    for location in chart.locations():
        if location not in known:
            known[location] = kind(chart, location)
        yield known[location]


def tally(chart, why, picture):
    """How many pixels are of which column, and the first one that is further than 1 apart."""
    counts, first = Counter(), None
    ours, theirs = memoryview(chart.pixels).cast("I"), memoryview(picture).cast("I")
    for n, reason in enumerate(why):
        if reason:
            counts[reason] += 1
        elif ours[n] == theirs[n]:
            counts["equal"] += 1
        else:
            pair = chart.pixels[4 * n : 4 * n + 4], picture[4 * n : 4 * n + 4]
            far = max(abs(a - b) for a, b in zip(*pair)) > 1
            counts["further" if far else "1 apart"] += 1
            first = first or (far and (n, *pair))
    return counts, first


def describe(chart, name, recipe, found):
    n, ours, theirs = found
    ours, theirs = (" ".join(map(str, pixel)) for pixel in (ours, theirs))
    return f"{name}: {recipe}: column {n % chart.width}, row {n // chart.width}: {theirs}, the library {ours}"


def row(counts, text):
    return " |".join("".join(f"{count[column]:8}" for column in COLUMNS) for count in counts) + f" | {text}"


def compare(recipes, charts, seen):
    listed, faults = departures(), []
    unknown = set(listed) - {(name, recipe) for name in seen for recipe in recipes}
    faults += [f"departures.txt: {name} has no recipe {recipe}" for name, recipe in sorted(unknown)]
    titles = "".join(f"{column:>8}" for column in COLUMNS)
    print("\n" + " |".join(f"{facts['browser']:^{len(titles)}}" for facts, _ in seen.values()))
    print(" |".join([titles] * len(seen)) + " | recipe")
    totals = [Counter() for _ in seen]
    for number, (recipe, chart) in enumerate(zip(recipes, charts)):
        why, counts = list(kinds(chart)), []
        for name, (_, pictures) in seen.items():
            count, first = tally(chart, why, pictures[number])
            if (name, recipe) in listed:
                if not first:
                    faults.append(f"departures.txt: {name} no longer departs with {recipe}")
                count = Counter(departs=len(why))
            elif first:
                faults.append(describe(chart, name, recipe, first))
            counts.append(count)
        for total, count in zip(totals, counts):
            total.update(count)
        print(row(counts, recipe))
    print(row(totals, "all"))
    return faults
