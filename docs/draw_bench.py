#!/usr/bin/env python3
"""Draws docs/bench.svg: whole runs beside SQLite, by the table of docs/BENCH.md.

    python3 docs/draw_bench.py [PAGE [PICTURE]]

A bar is the server's time by SQLite's, so a bar that ends before the line at 1 is faster. The tables are those with a column `server`, a
column `SQLite` and the ratio after it; a ratio that is no number is reckoned from the first numbers of the two cells. How many records
a row is of stands in the head of its table, or in a row before it.
"""

import html
import pathlib
import re
import sys

TOP = pathlib.Path(__file__).resolve().parent.parent
LETTER, SCALE, BAR, GAP, MARGIN, HEAD = 7.3, 480, 13, 12, 14, 62
FILLS = {"1,000,000 records": "#1d3d66", "100,000 records": "#447fbf"}
ALIKE = (0.8, 1.2)  # two runs of one job differ by as much


def cells_of(line):
    return [cell.strip() for cell in line.strip().strip("|").split("|")]


def number_in(cell):
    """Returns the first number of a cell, if it has one."""
    found = re.search(r"\d+(?:\.\d+)?", cell.replace("*", ""))
    return float(found[0]) if found else None


def records_in(text):
    """Returns of how many records a row or a head is, if it says so."""
    return next((records for records in FILLS if re.search(rf"(?<![\d,]){records}", text)), None)


def ratio_in(head, cells):
    """Returns the server's time by SQLite's in a row, if it has both."""
    at = head.index("SQLite")
    server, other = number_in(cells[head.index("server")]), number_in(cells[at])
    if not server or not other:
        return None
    told = (cells[at + 1 :] or [""])[0].replace("*", "")
    return number_in(told) if told[:1].isdigit() else server / other


def ratios_of(page):
    """Returns for each job, in order, its ratios by the number of records."""
    jobs, head, records = {}, None, None
    for line in page.splitlines():
        if not line.startswith("|"):
            head = None
        elif head is None:
            head = cells_of(line)
            records = records_in(head[0])
        elif "server" in head and "SQLite" in head:
            cells = cells_of(line)
            ratio = ratio_in(head, cells)
            records = records_in(cells[0]) or records if ratio is None else records
            if ratio and records:
                jobs.setdefault(job_of(cells[0]), {})[records] = ratio
    return jobs


def job_of(cell):
    """Returns what a row is of, in whole words."""
    job = re.sub(r"[`*]", "", cell)
    return re.sub(r"^the same", "read and write all", job)


def text(x, y, words, anchor="start", fill="#223"):
    return f'<text x="{x:.1f}" y="{y:g}" text-anchor="{anchor}" fill="{fill}">{html.escape(words)}</text>'


def bars_of(jobs, left):
    """Returns the elements of all bars, and where they end."""
    out, y = [], HEAD
    for job, ratios in jobs.items():
        height = len(ratios) * BAR
        out.append(text(left - 10, y + height / 2 + 4, job, "end"))
        for records, fill in FILLS.items():
            if records in ratios:
                length = SCALE * ratios[records]
                out.append(f'<rect x="{left}" y="{y}" width="{length:.1f}" height="{BAR - 2}" fill="{fill}"/>')
                out.append(text(left + length + 6, y + 10, f"{ratios[records]:.2f}"))
                y += BAR
        y += GAP
    return out, y


def draw(jobs):
    left = MARGIN + 10 + round(LETTER * max(map(len, jobs)))
    bars, end = bars_of(jobs, left)
    most = max(ratio for ratios in jobs.values() for ratio in ratios.values())
    width, height, line = round(left + SCALE * max(most, ALIKE[1]) + 50 + MARGIN), end + MARGIN, left + SCALE
    out = [
        f'<svg xmlns="http://www.w3.org/2000/svg" viewBox="0 0 {width} {height}" width="{width}" height="{height}" font-family="sans-serif" font-size="13">',
        f'<rect width="{width}" height="{height}" fill="#fff"/>',
        f'<rect x="{left + SCALE * ALIKE[0]:.1f}" y="{HEAD - 6}" width="{SCALE * (ALIKE[1] - ALIKE[0]):.1f}" height="{end - HEAD}" fill="#eee"/>',
        text(line, HEAD - 26, "1: as long as SQLite", "middle", "#b33"),
        text(line, HEAD - 11, "in the grey two runs of one job differ", "middle", "#667"),
    ]
    for number, (records, fill) in enumerate(FILLS.items()):
        out.append(f'<rect x="{left + 150 * number}" y="{MARGIN}" width="{BAR}" height="{BAR}" fill="{fill}"/>')
        out.append(text(left + 150 * number + BAR + 6, MARGIN + 11, records))
    out += bars + [f'<line x1="{line}" y1="{HEAD - 6}" x2="{line}" y2="{end - 6}" stroke="#b33" stroke-dasharray="4 3"/>', "</svg>"]
    return "\n".join(out) + "\n"


if len(sys.argv) > 3:
    sys.exit(__doc__)
page = pathlib.Path(sys.argv[1]) if len(sys.argv) > 1 else TOP / "docs" / "BENCH.md"
picture = pathlib.Path(sys.argv[2]) if len(sys.argv) > 2 else TOP / "docs" / "bench.svg"
found = ratios_of(page.read_text())
if not found:
    sys.exit(f"{page}: no table has a column server and a column SQLite with times")
picture.write_text(draw(found))
