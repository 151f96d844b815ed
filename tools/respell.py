#!/usr/bin/env python3
"""Gives the repository's own words of specs/ and proofs/ today's spelling: snake case for what is no type, camel case for a type.

usage: tools/respell.py [FOLDER]      the folder of the repository, else this one; run once, right after port.py

It goes over crates/ (.rt, .antt and .edit files) and the pages (.md). A word is turned only where it stands whole and outside a string, and only if a
file of specs/ or proofs/ declares it, so functions of src/, exported names, inputs and outputs stay. Three names would have fallen together with
another in the same file: AGAIN names them.
"""

import os
import re
import sys

DECLARED = re.compile(r"^\s*(?:(?:abbrev|unfoldable|pub|record|data|module|where|ruleset)\s+)*([^\s:(){}.,;\u231c\u03bb]+(?:\s+[^\s:(){}.,;\u231c\u03bb]+)*)\s+(?::|\()")
WORD = re.compile(r"(?<![\w'\u00b7])[A-Za-z_][\w']*(?:-[\w'\u2115\u2124*+<>\u2264\u2261]+)*")
ODD = {
    "getD-biased": "get_or-biased",
    "getD-position": "get_or-position",
    "getD-stops": "get_or-stops",
    "leZ-refl": "le_z-refl",
    "leZ-trans": "le_z-trans",
    "ltZ-not": "lt_z-not",
    "spotWithin": "SpotWithin",
    "is_placed": "IsPlaced",
}
# file, the word there before, and its new name: the first two are lemmas, the third a constructor
AGAIN = [
    ("crates/grammar/proofs/Numbers.antt", "is_digit", "is_digit_lem"),
    ("crates/tokens/proofs/Bytes.antt", "in_bytes", "in_bytes_lem"),
    ("crates/grammar/specs/Answers.antt", "out_of_range", "not_in_range"),
    ("crates/grammar/proofs/Answers.antt", "out_of_range", "not_in_range"),
    ("crates/avarezhu/proofs/Grammar.antt", "no_room", "without_room"),
]


def snake(word):
    return ODD.get(word) or re.sub(r"(?<=[a-z0-9])([A-Z])", lambda m: "_" + m.group(1).lower(), word)


def files(root, endings):
    for folder, dirs, names in os.walk(root):
        dirs[:] = sorted(d for d in dirs if d not in (".git", "out", "target"))
        for name in sorted(names):
            if name.endswith(endings):
                yield os.path.join(folder, name)


def read(path):
    with open(path, encoding="utf-8") as f:
        return f.read()


def table(root):
    words = {}
    for path in files(os.path.join(root, "crates"), (".antt",)):
        for line in read(path).split("\n"):
            m = DECLARED.match(line)
            if m and not line.strip().startswith("--"):
                for word in m.group(1).split():
                    bare = word.strip("\u25cc")
                    if re.match(r"[a-z]", bare) and re.search(r"[a-z0-9][A-Z]", bare) or bare in ODD:
                        words[bare] = snake(bare)
    return words


def turned(text, words, strings):
    def one(m):
        return words.get(m.group(0), m.group(0))

    if not strings:
        return WORD.sub(one, text)
    parts = re.split(r'("(?:[^"\\\n]|\\.)*")', text)
    return "".join(p if i % 2 else WORD.sub(one, p) for i, p in enumerate(parts))


def main():
    root = os.path.abspath(sys.argv[1] if len(sys.argv) > 1 else ".")
    words = table(root)
    for path, old, new in AGAIN:
        path = os.path.join(root, path)
        text = read(path)
        with open(path, "w", encoding="utf-8") as f:
            f.write(re.sub(r"(?<![\w'.-])" + old + r"(?![\w'-])", new, text))
    n = 0
    for path in files(root, (".rt", ".antt", ".edit", ".md")):
        text = read(path)
        new = turned(text, words, path.endswith(".rt"))
        if new != text:
            n += 1
            with open(path, "w", encoding="utf-8") as f:
                f.write(new)
    print(f"respell: {len(words)} words, {n} files")


if __name__ == "__main__":
    main()
