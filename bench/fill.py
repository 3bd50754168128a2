#!/usr/bin/env python3
"""Puts the figures of a run into the tables of docs/BENCH.md.

    bench/fill.py LOG

LOG is what bench/run has printed. A row of the page is found by its first cell, below the heading of its table. Aims and setups stay as
they are; a ratio that misses its aim is bold. What the page says in sentences stays: look at it afterwards.
"""

import re
import sys
from pathlib import Path

PAGE = Path(__file__).resolve().parent.parent / "docs" / "BENCH.md"
SIZES = ("100,000", "1,000,000")
ROWS = {"write all, 0 indexes": "write all, no index", "write all, 1 index": "the same, 1 index", "write all, 1 indexes": "the same, 1 index"}
ROWS |= {"write all, 3 indexes": "the same, 3 indexes", "100,000 commands, 1 index": "100,000 commands, 1 index"}


def cells_of(line):
    return [cell.strip() for cell in line.strip().strip("|").split("|")]


def row_of(cells):
    return re.sub(r"(?<=\|) +(?=\|)", " ", f"| {' | '.join(cells)} |")


def part_of(log, size):
    """What the log says of the tables of a number of records."""
    start = log.find(f"\n{size} records, without")
    if start < 0:
        sys.exit(f"bench/fill.py: the log has no tables of {size} records")
    ends = [at for it in SIZES if (at := log.find(f"\n{it} records, without", start + 1)) > 0]
    return log[start : min(ends, default=len(log))]


def rows_of(part, title, count):
    """The rows of so many figures that stand below a title, by their first cells."""
    lines = part[part.index(title) :].splitlines()[1:]
    rows = {}
    for line in lines:
        if not line.startswith("  "):
            break
        cells = cells_of(line)
        if line.startswith("  | ") and len(cells) == count + 1:
            rows[cells[0]] = cells[1:]
    return rows


def numbers_of(part, title, count):
    """The same of rows without bars, the names of which are the page's."""
    rows = {}
    for line in part[part.index(title) :].splitlines()[1:]:
        found = re.findall(r"([\d.]+) s\b", line)
        name = next((it for it in ROWS if re.match(rf"  {it} ", line)), None)
        if name is None:
            break
        rows[ROWS[name]] = found[:count] + re.findall(r"([\d,]+) bytes +(\d+) MB", line)
    return rows


def judged(ratio, old):
    """A ratio with the aim that stood beside the old one, bold if it misses it."""
    aim = re.search(r"\(([\d.]+)\)", old)
    missed = aim and ratio and (float(aim[1]) < 0.8 if ratio == "alike" else float(ratio) > float(aim[1]))
    return f"{f'**{ratio}**' if missed else ratio}{f' ({aim[1]})' if aim and ratio else ''}"


def whole_runs(page, parts):
    """The table of whole runs beside SQLite and the model."""
    found = {size: rows_of(parts[size], "  | job, processor time", 5) for size in SIZES}
    size, out = None, []
    for line in page.splitlines():
        cells = cells_of(line) if line.startswith("| ") else []
        if len(cells) == 7 and (head := re.fullmatch(r"\*\*([\d,]+) records\*\*", cells[0])):
            size = head[1]
        elif len(cells) == 7 and size and cells[0] in found[size]:
            server, base, by_base, model, by_model = found[size][cells[0]]
            line = row_of([*cells[:2], server, base, judged(by_base, cells[4]), model, judged(by_model, cells[6])])
        elif not line.startswith("|"):
            size = None
        out.append(line)
    return "\n".join(out) + "\n"


def replaced(page, heading, name, figures):
    """The page with other figures in the first row of a name below a heading; those that are None stay."""
    lines = page.splitlines()
    start = lines.index(f"## {heading}")
    at = next(number for number in range(start, len(lines)) if lines[number].startswith(f"| {name} |"))
    old = cells_of(lines[at])[1:]
    if len(old) != len(figures):
        sys.exit(f"bench/fill.py: {heading}: the row {name} has {len(old)} figures, not {len(figures)}")
    lines[at] = row_of([name, *(was if new is None else new for new, was in zip(figures, old))])
    return "\n".join(lines) + "\n"


def memory(page, parts):
    """The table of memory."""
    found = [rows_of(parts[size], "greatest memory, times", 2) for size in SIZES]
    for name in found[0]:
        page = replaced(page, "Memory", name, [*(rows[name][0] for rows in found), None])
    return page


def disk_and_journal(page, parts):
    """The tables of new files that are forced to the disk, and of a journal."""
    synced = [numbers_of(parts[size], "  new files on the disk", 3) for size in SIZES]
    summed = [numbers_of(parts[size], "  a journal, processor time", 4) for size in SIZES]
    for name in synced[0]:
        page = replaced(page, "New files forced to the disk", name, synced[0][name][:3] + synced[1][name][:3])
    for name in summed[0]:
        figures = []
        for rows in summed:
            *times, (size, memory) = rows[name]
            figures += [*times, f"{int(size.replace(',', '')) / 1e6:.1f}", memory]
        page = replaced(page, "A journal and its audit", name, figures)
    return page


def typed_lines(page, parts):
    """The table of typed lines."""
    found = re.findall(r"a line, (\d) indexes, no syncs +([\d.]+) us +([\d.]+) us +([\d.]+) times", parts["100,000"])
    for indexes, server, prompt, times in found:
        name = {"0": "no index", "1": "1 index", "3": "3 indexes"}[indexes]
        page = replaced(page, "Typed lines", name, [server, prompt, f"{times} times"])
    return page


def main():
    log, page = Path(sys.argv[1]).read_text(), PAGE.read_text()
    parts = {size: part_of(log, size) for size in SIZES}
    for step in (whole_runs, memory, disk_and_journal, typed_lines):
        page = step(page, parts)
    PAGE.write_text(page)
    for size in SIZES:
        packed = re.search(r"that run by the one without PACK +([\d.]+)", parts[size])
        print(f"{size} records: a run with PACK takes {packed[1]} times the one without" if packed else f"{size} records: no PACK")
    print("Look at the sentences, at `A record, a command` and at `table_tool`, which stay as they were.")


if __name__ == "__main__":
    main()
