"""The files of this folder: recipes, texts, and what browsers were seen to do with them."""
import gzip
import json
import re
from pathlib import Path

HERE = Path(__file__).resolve().parent
RECORDED = HERE / "recorded"
BROWSERS = ["chromium", "firefox"]

ESCAPES = {"t": "\t", "n": "\n", "r": "\r", "f": "\f", "s": " ", "\\": "\\"}


def lines(name):
    """The lines of a file, without the empty ones and the notes."""
    for line in (HERE / name).read_text(encoding="utf-8").split("\n"):
        if line and not line.startswith("#"):
            yield line


def recipe(line):
    """Width, height and text."""
    width, height, text = line.split(" ", 2)
    return int(width), int(height), text


def recipes():
    """Each recipe as it is written in recipes.txt."""
    return list(lines("recipes.txt"))


def plain(written):
    """The text that a line of texts.txt stands for; its escapes are told there."""

    def character(found):
        if found[1]:
            return chr(int(found[1], 16))
        return ESCAPES[found[2]] * int(found[3] or 1)

    return re.sub(r"\\(?:u\{([0-9a-f]+)\}|(.)(?:\{(\d+)\})?)", character, written)


def texts():
    """Each text as it is written in texts.txt."""
    return list(lines("texts.txt"))


def save(browser, facts, pictures):
    RECORDED.mkdir(exist_ok=True)
    (RECORDED / f"{browser}.json").write_text(json.dumps(facts, indent=1) + "\n")
    # Without a file name and a time, the same pixels give the same file.
    (RECORDED / f"{browser}.pixels.gz").write_bytes(gzip.compress(b"".join(pictures), 9, mtime=0))


def load(browser):
    """What was recorded, and the premultiplied pixels of each recipe."""
    facts = json.loads((RECORDED / f"{browser}.json").read_text())
    pixels = gzip.decompress((RECORDED / f"{browser}.pixels.gz").read_bytes())
    pictures, start = [], 0
    for width, height, _ in map(recipe, facts["recipes"]):
        pictures.append(pixels[start : start + 4 * width * height])
        start += 4 * width * height
    if start != len(pixels):
        raise ValueError(f"{browser}.pixels.gz has {len(pixels)} bytes, not {start}")
    return facts, pictures


def departures():
    """(browser, recipe) of each recipe that a browser does not draw as CSS says."""
    split = [line.split(" | ") for line in lines("departures.txt")]
    return {(browser, recipe) for browser, recipe, _section, _sentence, _deed in split}


def differences():
    """Each text with what the browsers say and the library's reply."""
    split = [line.split(" | ") for line in lines("differences.txt")]
    return [(text, (browsers, reply)) for text, browsers, reply, _words in split]
