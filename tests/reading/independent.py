#!/usr/bin/env python3
"""The reading of a gradient's text again, from document 01: an independent check of the crate `reader`.

    independent.py < TEXTS                  prints one line for each line of TEXTS
    independent.py --compare FILE < TEXTS   compares FILE with those lines; exit status 1 where they differ

TEXTS has one text to a line. In it \\xNN stands for the byte with that number and \\\\ for a backslash; a backslash that
starts neither stands for itself. A line that starts with # is a heading and is printed as it is (a text starts with \\x23).

For each text the reply is printed, and then what is handed out with it:

    4 blank                                                  a refusal hands out no gradient
    0 linear to top left | #ff0000ff | #0000ffff 40.000%     a direction, then the stops
    0 linear 450.000deg | #ff0000ff | #0000ffff 5.000px
    0 radial closest-side at 50.000% 0.000px | #..           a size, the center from the left and from the top, then the stops
    0 repeating linear to bottom | #..                       the same where the gradient repeats

Every number is printed with its thousandths and is exact.

How it reads, unlike the crate, which reads byte by byte at a cursor: the text is cut at its brackets, commas and white space into
words. Each word has a kind, one letter. What may stand between two commas is a regular expression over these letters.
"""
import argparse
import re
import sys

SPACE = b" \t\n\r\x0c"
LONGEST = 1024
MOST_STOPS = 16

NAMES = dict(
    aqua="00ffff", black="000000", blue="0000ff", fuchsia="ff00ff", gray="808080", green="008000", lime="00ff00",
    maroon="800000", navy="000080", olive="808000", purple="800080", red="ff0000", silver="c0c0c0", teal="008080",
    white="ffffff", yellow="ffff00",
)

# Letters for the kinds of words. A word that is none of these is a K, a color, or a ?, which no rule has.
WORDS = {
    "to": "T", "at": "A", "circle": "O", "center": "M", "left": "H", "right": "H", "top": "V", "bottom": "V",
    "closest-side": "E", "closest-corner": "E", "farthest-side": "E", "farthest-corner": "E",
}
UNITS = {"px": "L", "%": "P", "deg": "D"}

DIRECTION = re.compile("T(?:H|V|HV|VH)|D")
POSITION = "(?:[HVMLP]|[HMLP][VMLP]|[VM][HM])"
CIRCLE = re.compile(f"(?:O|OE|OL|EO|LO|L)(?:A{POSITION})?")
STOP = re.compile("K[LP]?")

NUMBER = re.compile(r"([+-]?)(?:([0-9]+)|([0-9]*)\.([0-9]{1,3}))(px|%|deg|)")
HEX = re.compile(r"#(?:[0-9a-f]{3}|[0-9a-f]{4}|[0-9a-f]{6}|[0-9a-f]{8})")

# The greatest magnitude of a number, in thousandths.
MOST = {"L": 8192 * 1000, "P": 1000 * 1000, "D": 3600 * 1000}


class Number:
    """A number in thousandths, its kind (L, P or D) and its unit."""

    def __init__(self, thousandths, unit):
        self.value = thousandths
        self.kind = UNITS[unit]
        self.unit = unit

    def in_range(self):
        whole_quarters = self.kind != "D" or self.value % 250 == 0
        return abs(self.value) <= MOST[self.kind] and whole_quarters

    def __str__(self):
        sign = "-" if self.value < 0 else ""
        return "%s%d.%03d%s" % (sign, *divmod(abs(self.value), 1000), self.unit)


class Refusal(Exception):
    pass


def number(word):
    found = NUMBER.fullmatch(word)
    if not found:
        return None
    sign, whole, before, after, unit = found.groups()
    if whole is None:
        thousandths = int(before or "0") * 1000 + int(after.ljust(3, "0"))
    else:
        thousandths = int(whole) * 1000
    if not unit:
        if thousandths != 0:
            return None
        unit = "px"
    return Number(-thousandths if sign == "-" else thousandths, unit)


def color(word):
    """Eight hex digits, red, green, blue, alpha; or None."""
    if word in NAMES:
        return NAMES[word] + "ff"
    if word == "transparent":
        return "00000000"
    if not HEX.fullmatch(word):
        return None
    digits = word[1:]
    if len(digits) < 6:
        digits = "".join(digit * 2 for digit in digits)
    return digits.ljust(8, "f")


def kind_of(word):
    if word in WORDS:
        return WORDS[word]
    if color(word):
        return "K"
    amount = number(word)
    return amount.kind if amount else "?"


class Item:
    """What stands between two commas: its words and their kinds."""

    def __init__(self, text):
        self.words = [word for word in re.split("[ \t\n\r\x0c]+", text) if word]
        self.kinds = "".join(map(kind_of, self.words))

    def numbers(self):
        return [number(word) for word, kind in zip(self.words, self.kinds) if kind in "LPD"]

    def pick(self, kinds):
        return [word for word, kind in zip(self.words, self.kinds) if kind in kinds]


def stop_line(item):
    return " ".join(["#" + color(item.words[0])] + [str(n) for n in item.numbers()])


def direction_line(item):
    if item.kinds == "D":
        return str(number(item.words[0]))
    return "to " + " ".join(item.pick("V") + item.pick("H"))


def coordinate(word):
    at = {"left": "0.000%", "top": "0.000%", "center": "50.000%", "right": "100.000%", "bottom": "100.000%"}
    return at.get(word) or str(number(word))


def center_line(words, kinds):
    """The center from the left and from the top, of the words after `at`."""
    if len(words) < 2:
        words, kinds = words + ["center"], kinds + "M"
        swapped = kinds[0] == "V"
    else:
        swapped = kinds[0] == "V" or kinds[1] == "H"
    x, y = reversed(words) if swapped else words
    return coordinate(x) + " " + coordinate(y)


def circle_line(item):
    shape, _, _ = item.kinds.partition("A")
    size = [word for word in item.words[: len(shape)] if word != "circle"]
    if not size:
        size_line = "farthest-corner"
    else:
        size_line = size[0] if WORDS.get(size[0]) == "E" else str(number(size[0]))
    after = len(shape) + 1
    at = (item.words[after:], item.kinds[after:]) if len(item.words) > after else (["center"], "M")
    return size_line + " at " + center_line(*at)


def circle_in_range(item):
    """A size is not negative. It is the only length before `at`."""
    shape, _, _ = item.kinds.partition("A")
    return all(n.value >= 0 for n in item.numbers()[: shape.count("L")])


def parse(text):
    """The head's line, the stops, and whether every number is in its range."""
    found = re.fullmatch(r"(repeating-|)(linear|radial)-gradient\((.*)\)", text, re.DOTALL)
    if not found:
        raise Refusal
    items = [Item(part) for part in found[3].split(",")]
    in_range = True
    if found[2] == "radial":
        head = items.pop(0)
        if not CIRCLE.fullmatch(head.kinds):
            raise Refusal
        line = "radial " + circle_line(head)
        in_range = circle_in_range(head) and all(n.in_range() for n in head.numbers())
    elif DIRECTION.fullmatch(items[0].kinds):
        head = items.pop(0)
        line = "linear " + direction_line(head)
        in_range = all(n.in_range() for n in head.numbers())
    else:
        line = "linear to bottom"
    if len(items) < 2 or not all(STOP.fullmatch(item.kinds) for item in items):
        raise Refusal
    in_range = in_range and all(n.in_range() for item in items for n in item.numbers())
    return ("repeating " if found[1] else "") + line, items, in_range


def read(data):
    """The line for a text."""
    if len(data) > LONGEST:
        return "3 blank"
    # Only the ASCII letters of bytes have a lower case, and each byte becomes one character.
    text = data.lower().strip(SPACE).decode("latin-1")
    try:
        line, stops, in_range = parse(text)
    except Refusal:
        return "4 blank"
    if not in_range:
        return "5 blank"
    if len(stops) > MOST_STOPS:
        return "6 blank"
    return " | ".join(["0 " + line] + [stop_line(item) for item in stops])


def decoded(line):
    def byte(match):
        return bytes([int(match[1], 16)]) if match[1] else b"\\"

    return re.sub(rb"\\(?:x([0-9A-Fa-f]{2})|\\)", byte, line)


def answers(data):
    """The line for each line of the data, and how many of them are texts."""
    lines = data.split(b"\n")
    if lines[-1] == b"":
        lines.pop()
    out, texts = [], 0
    for line in lines:
        if line.startswith(b"#"):
            out.append(line)
        else:
            out.append(read(decoded(line)).encode("ascii"))
            texts += 1
    return out, texts


def compare(expected, texts, path):
    with open(path, "rb") as f:
        found = f.read()
    if found == b"".join(line + b"\n" for line in expected):
        print(f"reading: {texts} texts agree")
        return 0
    got = found.split(b"\n")
    if got[-1] == b"":
        got.pop()
    else:
        print("reading: the last line has no line end")
    for i in range(max(len(expected), len(got))):
        a = repr(expected[i]) if i < len(expected) else "no line"
        b = repr(got[i]) if i < len(got) else "no line"
        if a != b:
            print(f"reading: line {i + 1}: expected {a}, found {b}")
    return 1


def main():
    parser = argparse.ArgumentParser(description=__doc__, formatter_class=argparse.RawDescriptionHelpFormatter)
    parser.add_argument("--compare", metavar="FILE")
    options = parser.parse_args()
    expected, texts = answers(sys.stdin.buffer.read())
    if options.compare:
        return compare(expected, texts, options.compare)
    sys.stdout.buffer.write(b"".join(line + b"\n" for line in expected))
    return 0


if __name__ == "__main__":
    sys.exit(main())
