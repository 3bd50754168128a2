#!/usr/bin/env python3
"""Makes a benchmark's table, index, scripts and setup files in a folder that exists.

    python3 make_tables.py FOLDER RECORDS [LINES]

T.DBF has RECORDS records of 60 bytes, BYCODE.NDX, BYNAME.NDX and BYREST.NDX are its indexes on CODE, NAME and REST, and the
scripts have LINES commands (10,000 if left out) after their USE, but LONG.PRG 100,000 and ASKED.PRG 1,000,000. MARKED.DBF is the
same table with each tenth record marked as deleted. NOTES.DBF and NOTES.DBT are a table of its fields and a memo field, with at most
100,000 records and a text of 100 to 399 bytes in each. Written from the published layouts of dBASE III PLUS alone, and the same in
every run. Codes and rests are scattered over the records, so that an index's order is not that of the records.
"""

import itertools
import random
import struct
import sys
from pathlib import Path

FIELDS = [("CODE", "C", 12, 0), ("NAME", "C", 24, 0), ("AMOUNT", "N", 10, 2), ("REST", "C", 13, 0)]
STEP = 7919  # a prime that divides no number of records in use: record n has the code n * STEP mod RECORDS
OTHER_STEP = 104729  # another such prime, for REST
SCRIPTS = ["EMPTY", "MIXED", "BYNUMBER", "LONG"]
LONG_LINES, ASKED_LINES = 100_000, 1_000_000
MOST_NOTES = 100_000
BLOCK = 512  # bytes of a memo file's block
INDEXES = [("BYCODE", "CODE", 0), ("BYNAME", "NAME", 1), ("BYREST", "REST", 3)]


def code(number):
    return f"C{number:07}"


def cells(n, records):
    """The cells of the record n + 1, by their fields' order."""
    own, rest = code(n * STEP % records), f"R{n * OTHER_STEP % records:07}"
    texts = (f"{own:<12}", f"{'NAME ' + str(n + 1):<24}", f"{n % 100000 / 100:>10.2f}", f"{rest:<13}")
    return [text.encode("ascii") for text in texts]


def write_table(path, rows, marked=0, fields=FIELDS, version=3):
    """Each `marked`-th record is marked as deleted, if that is not 0. A table with a memo field has the version 0x83."""
    head = 32 + 32 * len(fields) + 1
    width = 1 + sum(field[2] for field in fields)
    with open(path, "wb") as out:
        out.write(struct.pack("<4BIHH20x", version, 87, 3, 2, len(rows), head, width))
        for name, kind, size, decimals in fields:
            out.write(struct.pack("<11sc4xBB14x", name.encode(), kind.encode(), size, decimals))
        out.write(b"\r")
        for number, row in enumerate(rows, 1):
            out.write((b"*" if marked and number % marked == 0 else b" ") + b"".join(row))
        out.write(b"\x1a")


def write_notes(folder, rows):
    """A table with a memo field, and its memo file: each text in a block of its own, in the order of the records."""
    chance = random.Random(3)
    fields = [*FIELDS, ("NOTE", "M", 10, 0)]
    write_table(folder / "NOTES.DBF", [[*row, b"%10d" % number] for number, row in enumerate(rows, 1)], fields=fields, version=0x83)
    with open(folder / "NOTES.DBT", "wb") as out:
        out.write(struct.pack("<I12xB", len(rows) + 1, 3).ljust(BLOCK, b"\0"))
        for number in range(1, len(rows) + 1):
            text = (f"memo {number} of the table, with words enough. ".encode() * 12)[: 100 + chance.randrange(300)]
            out.write((text + b"\x1a\x1a").ljust(BLOCK, b"\0"))
    write_index(folder / "ONNOTES.NDX", "CODE", [row[0] for row in rows])
    (folder / "NOTES-EMPTY.SET").write_text("TABLE NOTES NOTES.DBF NOTES.DBT\nINDEX NOTES ONNOTES ONNOTES.NDX\nSTATION EMPTY.PRG\n")


def write_index(path, field, keys):
    """Bottom up, with full pages: the leaves first, then level by level, the root last. `keys` are those of the records."""
    length = len(keys[0])
    size = 4 * ((length + 11) // 4)
    most = 504 // size
    pairs = sorted(zip(keys, range(1, len(keys) + 1)))
    first, children = 1, []  # a level's first page, and the greatest key of each of its pages
    with open(path, "wb") as out:
        out.write(bytes(512))
        for low in range(0, len(pairs), most):
            group = pairs[low : low + most]
            page = struct.pack("<I", len(group))
            for key, number in group:
                page += struct.pack("<II", 0, number) + key.ljust(size - 8, b"\0")
            out.write(page.ljust(512, b"\0"))
            children.append(group[-1][0])
        pages = 1 + len(children)
        while len(children) > 1:
            cuts = list(range(0, len(children), most + 1)) + [len(children)]
            if cuts[-1] - cuts[-2] == 1:
                cuts[-2] -= 1  # an inner page with one child has no key
            above = []
            for low, high in zip(cuts, cuts[1:]):
                page = struct.pack("<I", high - low - 1)
                for child in range(low, high - 1):
                    page += struct.pack("<II", first + child, 0) + children[child].ljust(size - 8, b"\0")
                page += struct.pack("<I", first + high - 1)
                out.write(page.ljust(512, b"\0"))
                above.append(children[high - 1])
            first, children = pages, above
            pages += len(above)
        out.seek(0)
        out.write(struct.pack("<IIIHHHHHBB", pages - 1, pages, 0, length, most, 0, size, 0, 0, 0) + field.encode())


def mixed(records):
    """SEEK, REPLACE, APPEND BLANK and SKIP, ten lines in turn. A new code stands behind an old one in the order, so
    new keys come everywhere in it; every SEEK finds its key, and no line comes to the end. Without an index each SEEK
    is refused, and the others go on from where they are."""
    chance = random.Random(1)
    some = lambda: code(chance.randrange(records - 1))
    made = 0
    while True:
        made += 1
        new = f"{some()}+{made % 1000:03}"
        yield "APPEND BLANK"
        yield f'REPLACE CODE WITH "{new}"'
        yield "SKIP -1"
        yield f'REPLACE REST WITH "REST {made}"'
        yield f'SEEK "{some()}"'
        yield f'REPLACE NAME WITH "CHANGED {made}"'
        yield "SKIP"
        yield f"REPLACE AMOUNT WITH {made % 1000}.25"
        yield f'SEEK "{new}"'
        yield f'REPLACE CODE WITH "{some()}-{made % 1000:03}"'


def by_number(records):
    """Moves by record number, and changes of a field that is in no key."""
    chance = random.Random(2)
    while True:
        number = chance.randrange(records) + 1
        yield f"GO {number}"
        yield f'REPLACE NAME WITH "VISITED {number}"'


def write_script(path, commands, lines):
    text = "USE T EXCLUSIVE\n" + "".join(next(commands) + "\n" for _ in range(lines))
    path.write_text(text)


def write_setup(path, table, indexes, script):
    lines = [f"INDEX T {name} {name}.NDX\n" for name, _, _ in indexes]
    path.write_text(f"TABLE T {table}\n{''.join(lines)}STATION {script}.PRG\n")


def main():
    folder, records = Path(sys.argv[1]), int(sys.argv[2])
    lines = int(sys.argv[3]) if len(sys.argv) > 3 else 10000
    rows = [cells(n, records) for n in range(records)]
    write_table(folder / "T.DBF", rows)
    write_table(folder / "MARKED.DBF", rows, 10)
    for name, field, place in INDEXES:
        write_index(folder / f"{name}.NDX", field, [row[place] for row in rows])
    (folder / "EMPTY.PRG").write_text("")
    (folder / "PACK.PRG").write_text("USE T EXCLUSIVE\nPACK\n")
    write_script(folder / "MIXED.PRG", mixed(records), lines)
    write_script(folder / "BYNUMBER.PRG", by_number(records), lines)
    write_script(folder / "LONG.PRG", mixed(records), LONG_LINES)
    write_script(folder / "ASKED.PRG", itertools.repeat("? RECNO()"), ASKED_LINES)
    write_setup(folder / "PLAIN-ASKED.SET", "T.DBF", [], "ASKED")
    for name, field, _ in INDEXES:
        (folder / f"ON{field}.PRG").write_text(f"USE T EXCLUSIVE\nINDEX ON {field} TO {name}\n")
        write_setup(folder / f"PLAIN-ON{field}.SET", "T.DBF", [], f"ON{field}")
    write_notes(folder, rows[:MOST_NOTES])
    for script in SCRIPTS:
        for kind, indexes in (("PLAIN", []), ("INDEXED", INDEXES[:1]), ("THREE", INDEXES)):
            write_setup(folder / f"{kind}-{script}.SET", "T.DBF", indexes, script)
    for script in ("EMPTY", "PACK"):
        write_setup(folder / f"MARKED-{script}.SET", "MARKED.DBF", INDEXES, script)


main()
