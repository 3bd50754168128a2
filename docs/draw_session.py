#!/usr/bin/env python3
"""Draws docs/session.svg: a terminal in which the demo office is run, its files are looked at, and commands are typed.

    python3 docs/draw_session.py PROGRAMS [FILE]

PROGRAMS is a folder with the built programs. Each command is run in a copy of demo/, and what it prints is drawn. The commands that are
typed, with their answers, are the first lines of the typed day that the manual shows, which docs/check compares with the programs. FILE
is docs/session.svg, if left out.
"""

import os
import pathlib
import re
import shutil
import subprocess
import sys
import tempfile
from xml.sax.saxutils import escape

TOP = pathlib.Path(__file__).resolve().parent.parent
COMMANDS = [
    "station_server --setup OFFICE.SET --out out --today 19870315",
    "grep -v '^\\*' LEDGER.PRG | paste - out/STATION1.TXT | expand -t 30 | head -n 8",
    "table_tool show MEMBERS.DBF --order BYNAME.NDX --from \"BAUER, D\" | head -n 3",
]
TYPED_DAY, TYPED_LINES = "Now type commands", 12
SIZE, STEP, MARGIN, COLUMNS = 14, 20, 16, 104


def colour_of(line):
    """Returns the colour of a line that a program prints, or that is typed after a station's number."""
    if re.match(r"\d+\. ", line):
        return "#8fd18f"
    return "#f0a0a0" if "REFUSED" in line else "#dde"


def typed_day():
    """Returns the first lines of the manual's typed day, after the command that starts it, each with its colour."""
    lines = (TOP / "docs" / "MANUAL.md").read_text().splitlines()
    begin = next(at for at, line in enumerate(lines) if line.startswith(TYPED_DAY))
    command = [line.strip() for line in lines[:begin] if line.startswith("    station_prompt ")][-1]
    shown = [line.strip() for line in lines[begin + 2 : begin + 2 + TYPED_LINES]]
    return [("#8fd18f", f"$ {command}")] + [(colour_of(line), line) for line in shown]


def session(programs):
    """Returns the lines of the session, each with its colour."""
    lines = []
    with tempfile.TemporaryDirectory() as folder:
        shutil.copytree(TOP / "demo", f"{folder}/demo", ignore=shutil.ignore_patterns("out"))
        os.mkdir(f"{folder}/demo/out")
        env = {**os.environ, "PATH": f"{programs}:{os.environ['PATH']}"}
        for command in COMMANDS:
            ran = subprocess.run(
                ["sh", "-c", command], cwd=f"{folder}/demo", env=env, stdout=subprocess.PIPE, stderr=subprocess.STDOUT, text=True, check=True
            )
            lines.append(("#8fd18f", f"$ {command}"))
            lines += [(colour_of(line), line.rstrip()) for line in ran.stdout.splitlines()]
    return lines + typed_day()


def draw(lines):
    """Returns the picture of the lines."""
    width, height = 2 * MARGIN + round(COLUMNS * SIZE * 0.602), 2 * MARGIN + len(lines) * STEP
    out = [
        f'<svg xmlns="http://www.w3.org/2000/svg" viewBox="0 0 {width} {height}" width="{width}" height="{height}"'
        f' font-family="monospace" font-size="{SIZE}">',
        f'<rect width="{width}" height="{height}" rx="8" fill="#223"/>',
    ]
    for number, (colour, line) in enumerate(lines, 1):
        y = MARGIN + number * STEP - 6
        out.append(f'<text x="{MARGIN}" y="{y}" fill="{colour}" xml:space="preserve">{escape(line)}</text>')
    out.append("</svg>")
    return "\n".join(out) + "\n"


if len(sys.argv) not in (2, 3):
    sys.exit(__doc__)
target = pathlib.Path(sys.argv[2]) if len(sys.argv) == 3 else TOP / "docs" / "session.svg"
target.write_text(draw(session(pathlib.Path(sys.argv[1]).resolve())))
