#!/usr/bin/env python3
"""Draws docs/commit.svg: the steps in which new files replace the old ones, and what a crash at each leaves.

    python3 docs/draw_commit.py [FILE]

FILE is docs/commit.svg, if left out. The steps are those of `commit` and of recovery in the crate files_in_place.
"""

import pathlib
import sys

TOP = pathlib.Path(__file__).resolve().parent.parent
STEPS = [
    ["write each", "new file under", "a temporary", "name"],
    ["sync these,", "side by side"],
    ["write and sync", "the list under", "a temporary", "name"],
    ["sync the", "folder"],
    ["RENAME", "THE LIST"],
    ["sync the", "folder"],
    ["rename each", "new file", "to NAME"],
    ["sync the", "folder"],
    ["remove the list", "and all other", "reserved names"],
    ["sync the", "folder"],
]
# The steps from one to another, and what a crash leaves in them.
ZONES = [
    (1, 4, "#eceff1", "after a crash: all OLD files"),
    (5, 6, "#fdf3e1", "all OLD or all NEW"),
    (7, 10, "#e6f4ea", "after a crash: all NEW files (recovery ends it)"),
]
RENAME = 5
WIDTH, HEIGHT, MARGIN, TOP_OF_BOX, BOX = 1080, 166, 8, 36, 84
PART = (WIDTH - 2 * MARGIN) / len(STEPS)


def text(x, y, words, size, more=""):
    return f'<text x="{x:.1f}" y="{y:g}" text-anchor="middle" font-size="{size}"{more}>{words}</text>'


def zone(first, last, colour, words):
    left, right = MARGIN + (first - 1) * PART, MARGIN + last * PART
    return [
        f'<rect x="{left + 1:.1f}" y="{MARGIN}" width="{right - left - 2:.1f}" height="{HEIGHT - 2 * MARGIN}" rx="6" fill="{colour}"/>',
        text((left + right) / 2, HEIGHT - 20, words, 12, ' font-weight="bold"'),
    ]


def step(number, lines):
    left, middle = MARGIN + (number - 1) * PART, MARGIN + (number - 0.5) * PART
    fill = "#ffd9a0" if number == RENAME else "#fff"
    out = [
        text(middle, TOP_OF_BOX - 8, number, 12, ' font-weight="bold"'),
        f'<rect x="{left + 5:.1f}" y="{TOP_OF_BOX}" width="{PART - 10:.1f}" height="{BOX}" rx="4" fill="{fill}" stroke="#667"/>',
    ]
    first = TOP_OF_BOX + BOX / 2 + 5 - 8 * (len(lines) - 1)
    return out + [text(middle, first + 16 * at, line, 11) for at, line in enumerate(lines)]


def draw():
    out = [
        f'<svg xmlns="http://www.w3.org/2000/svg" viewBox="0 0 {WIDTH} {HEIGHT}" width="{WIDTH}" height="{HEIGHT}" font-family="sans-serif">',
        f'<rect width="{WIDTH}" height="{HEIGHT}" fill="#fff"/>',
    ]
    for each in ZONES:
        out += zone(*each)
    for number, lines in enumerate(STEPS, 1):
        out += step(number, lines)
    return "\n".join([*out, "</svg>"]) + "\n"


(pathlib.Path(sys.argv[1]) if len(sys.argv) > 1 else TOP / "docs" / "commit.svg").write_text(draw())
