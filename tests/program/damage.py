"""Puts texts that are damaged at random to `avarezhu check`.

    damage.py PROGRAM SEED COUNT

Whatever the damage, the program ends with status 0 or 2, and a refusal names a place in the text. Prints how often the
program was run and how many texts were refused.
"""
import random
import re
import subprocess
import sys

program, seed, count = sys.argv[1], int(sys.argv[2]), int(sys.argv[3])
chance = random.Random(seed)
texts = [
    b"linear-gradient(to right, black, white)",
    b"linear-gradient(33.25deg, #ff08 -20%, lime 10px, #00f0 30px, yellow)",
    b"radial-gradient(circle closest-side at 30% 40%, red, lime 10px, blue 10px, #1234)",
    b"repeating-linear-gradient(100.75deg, black, black 4px, white 4px, white 8px)",
    b"repeating-radial-gradient(circle 16px at center, red, #0f0 50%, transparent)",
    b" Linear-Gradient(\n\tto top left,\r\n\tred,\n\ttransparent 50%,\n\tblue)\n",
]
scraps = [b",", b"(", b")", b" ", b";", b"\n", b"\0", b"\xc2\xa0", b"\xef\xbb\xbf", b"\xff", b"em", b"rgb(", b"red", b"9999px", b"#", b"-", b"\xe2\x80"]


def damaged():
    text = chance.choice(texts)
    for _ in range(chance.randrange(1, 5)):
        a = chance.randrange(len(text) + 1)
        b = min(len(text), a + chance.choice([0, 0, 1, 1, 2, 9]))
        text = text[:a] + chance.choice(scraps + [b""] * 6) * chance.choice([1, 1, 1, 2, 400]) + text[b:]
    return text[:1024]


refused = 0
for _ in range(count):
    text = damaged()
    run = subprocess.run([program, "check"], input=text, capture_output=True)
    assert run.returncode in (0, 2) and run.stderr == b"", (text, run)
    if run.returncode == 2:
        refused += 1
        first, second = run.stdout.split(b"\n")[:2]
        assert re.match(rb"REFUSED \([456]\): ", first) and re.match(rb"standard input, line \d+, column \d+: ", second), (text, run.stdout)
        assert not re.search(rb"[\x00-\x09\x0b-\x1f\x7f]", run.stdout), (text, run.stdout)
print(count, refused)
