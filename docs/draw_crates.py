#!/usr/bin/env python3
"""Draws docs/crates.svg: the crates in six bands. A crate uses crates of its own band and of those below it, but for two uses (ALLOWED).

    python3 docs/draw_crates.py [FILE]

FILE is docs/crates.svg, if left out. Which crate uses which is read from crates.txt. The status is 1, and nothing is drawn, where a crate
stands in no band, or uses one of a band above its own. The crates of tests are left out, with those that only these use.
"""

import pathlib
import sys

TOP = pathlib.Path(__file__).resolve().parent.parent
BANDS = [
    ("Programs", "#e8eefc", "main; options, work, messages", [
        "station_server", "station_prompt", "table_tool", "station_audit",
        "server_program", "live_stations", "live_program", "tool_program", "audit_program", "table_maker", "program_frame"]),
    ("A live day", "#e6f4ea", "each answer is on the disk before it is shown", ["open_day", "live_day", "live_log"]),
    ("A run", "#fdf3e1", "scripts, threads, a whole run from files to files", [
        "office_run", "setup_check", "setup_files", "entry_text", "journal_file", "kept_files", "audit", "field_list", "station_lines"]),
    ("The catalogue", "#fbe9ec", "what each command does (Step); the journal; the lock", ["shared_catalogue", "catalogue_core", "lock_table"]),
    ("Tables and indexes", "#efe9fb", "what a table is; reading, writing, editing", [
        "table_core", "table_order", "ndx_index", "key_expr", "dbf_image", "dbf_fields",
        "table_diff", "table_text", "table_loader", "table_reader"]),
    ("Bytes and files", "#eceff1", "all new files or none, after any crash", ["folders", "files_in_place", "disk_in_place", "byte_io"]),
]
# The uses of a crate in a band above: a definition (`first_fault`), and whether a day is open.
ALLOWED = {("folders", "dbf_fields"), ("setup_check", "open_day")}
FOR_TESTS = {"memory_disk", "sample_files", "scarce", "case_files", "cases"}
WIDTH, LEFT, BOX, STEP, HEAD, GAP, MARGIN, BREAK = 1080, 170, 28, 36, 24, 16, 6, 8
LETTER, SPACE = 7.1, 16


def crates():
    """Returns the crates of crates.txt, each with what it uses, without those of tests."""
    named = {}
    for line in (TOP / "crates.txt").read_text().splitlines():
        name, _, used = line.split("#")[0].strip().partition(":")
        if name and name not in FOR_TESTS and not name.endswith("_tests"):
            named[name] = used.split()
    return named


def faults(named):
    """Returns what in the bands is not so."""
    level = {name: at for at, (_, _, _, names) in enumerate(BANDS) for name in names}
    told = [f"{name} stands in no band" for name in named if name not in level]
    told += [f"there is no crate {name}" for name in level if name not in named]
    above = [(name, used) for name in named for used in named[name] if name in level and level.get(used, len(BANDS)) < level[name]]
    return told + [f"{name} uses {used}, of a band above" for name, used in above if (name, used) not in ALLOWED]


def rows_of(names):
    """Returns the names of a band in rows that fit its width, each with its place and its width."""
    rows, x = [[]], LEFT
    for name in names:
        width = len(name) * LETTER + SPACE
        if x + width > WIDTH - 2 * MARGIN:
            rows.append([])
            x = LEFT
        rows[-1].append((name, x, width))
        x += width + 8
    return rows


def text(x, y, words, more=""):
    return f'<text x="{x:g}" y="{y:g}"{more}>{words}</text>'


def draw_band(y, band):
    """Returns the elements of a band, and its height."""
    name, colour, note, names = band
    parts = [names[:4], names[4:]] if name == "Programs" else [names]
    rows = [row for part in parts for row in rows_of(part)]
    height = HEAD + len(rows) * STEP
    out = [f'<rect x="{MARGIN}" y="{y}" width="{WIDTH - 2 * MARGIN}" height="{height}" rx="6" fill="{colour}" stroke="#667"/>']
    out += [text(18, y + 30, name, ' font-weight="bold"'), text(LEFT, y + height - 8, note, ' font-size="11" fill="#555"')]
    for number, row in enumerate(rows):
        top = y + BREAK + 2 + number * STEP
        for crate, x, width in row:
            out.append(f'<rect x="{x:g}" y="{top}" width="{width:g}" height="{BOX}" rx="4" fill="#fff" stroke="#889"/>')
            out.append(text(x + width / 2, top + 19, crate, ' text-anchor="middle"'))
    return out, height


def draw():
    out, y = [], MARGIN
    for at, band in enumerate(BANDS):
        elements, height = draw_band(y, band)
        out += elements
        y += height
        if at + 1 < len(BANDS):
            out.append(f'<path d="M{WIDTH // 2} {y + 2} v{GAP - 5} m-4 -4 l4 4 l4 -4" stroke="#333" fill="none"/>')
            y += GAP
    y += MARGIN
    head = f'<svg xmlns="http://www.w3.org/2000/svg" viewBox="0 0 {WIDTH} {y}" width="{WIDTH}" height="{y}" font-family="sans-serif" font-size="13">'
    return "\n".join([head, f'<rect width="{WIDTH}" height="{y}" fill="#fff"/>', *out, "</svg>"]) + "\n"


found = faults(crates())
for fault in found:
    print(f"docs/draw_crates.py: {fault}", file=sys.stderr)
if not found:
    (pathlib.Path(sys.argv[1]) if len(sys.argv) > 1 else TOP / "docs" / "crates.svg").write_text(draw())
sys.exit(1 if found else 0)
