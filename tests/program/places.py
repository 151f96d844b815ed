"""Puts texts with one wrong item to `avarezhu check`, which must say where it stands.

    places.py PROGRAM SEED COUNT

The texts are made from items that are right and one that is not, so the line, the columns and the number of the wrong
item are known without reading the text again. Prints how often the program was run.
"""
import random
import re
import subprocess
import sys

program, seed, count = sys.argv[1], int(sys.argv[2]), int(sys.argv[3])
chance = random.Random(seed)
heads = {
    "linear-gradient(": ["", "to left", "to bottom right", "-45.25deg", "TO Top"],
    "radial-gradient(": ["circle", "circle 20px", "closest-side circle at 10% 20px", "3.5px at center", "circle at right"],
}
wrong_heads = {
    "linear-gradient(": [("to left right", 4), ("45deg to top", 4), ("to the right", 4), ("4000deg", 5), ("0.1deg", 5)],
    "radial-gradient(": [("circle at top 5px", 4), ("circle circle", 4), ("circle at", 4), ("circle -1px", 5), ("circle at 1001% 0", 5)],
}
for name in list(heads):
    heads["repeating-" + name] = heads[name]
    wrong_heads["repeating-" + name] = wrong_heads[name]
stops = ["red", "#0f0", "blue 40%", "#11223344 -5px", "transparent", "White 0"]
wrong_stops = [("redd", 4), ("#12345", 4), ("blue 4em", 4), ("lime 5", 4), ("red 1px 2px 3px", 4), ("red40%", 4), ("red 9000px", 5), ("blue -1000.5%", 5)]
commas = [",", ", ", " ,", ",\n    ", "\n,\t", ",\r\n"]


def made():
    """A text, the reply to it, its wrong item, where that begins, and which stop of how many it is, 0 for the head."""
    name = chance.choice(list(heads))
    head = chance.choice(heads[name])
    items = [chance.choice(stops) for _ in range(chance.randrange(2, 9))]
    places = [0] if head and chance.random() < 0.3 else range(1, len(items) + 1)
    place = chance.choice(places)
    item, reply = chance.choice(wrong_heads[name] if place == 0 else wrong_stops)
    whole = ([item if place == 0 else head] if head else []) + [item if i == place else s for i, s in enumerate(items, 1)]
    text, begin = chance.choice(["", " ", "\n"]) + name, 0
    for i, part in enumerate(whole, 0 if head else 1):
        if i > (0 if head else 1):
            text += chance.choice(commas)
        if i == place:
            begin = len(text)
        text += part
    return text + ")", reply, item, begin, place, len(items)


for _ in range(count):
    text, reply, item, begin, place, stops_in_all = made()
    run = subprocess.run([program, "check"], input=text.encode(), capture_output=True)
    said = run.stdout.decode()
    what = (text, said)
    assert run.returncode == 2 and run.stderr == b"", what
    said = re.match(rf"REFUSED \({reply}\): .*\nstandard input, line (\d+), column (\d+): (.*)\n  (.*)\n  ( *)(\^~*)\n", said)
    assert said, what
    line = text.count("\n", 0, begin) + 1
    column = begin - (text.rfind("\n", 0, begin) + 1) + 1
    # the item, or the part of it that is wrong
    assert int(said[1]) == line and column <= int(said[2]) < column + len(item), what
    assert int(said[2]) + len(said[6]) <= column + len(item), what
    marked = said[4][len(said[5]):len(said[5]) + len(said[6])]
    assert marked in item and marked == item[int(said[2]) - column:][:len(marked)], what
    number = re.search(r"stop (\d+) of (\d+)", said[3])
    assert number is None or (int(number[1]), int(number[2])) == (place, stops_in_all), what
    assert place < 2 or number, what
print(count)
