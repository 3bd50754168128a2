#!/usr/bin/env python3
"""Makes the demo office's files: four DBF tables, one of them with memos, and five NDX indexes.

Written from the published layouts of dBASE III PLUS alone. Nothing of the server is used, so that the
server meets the files of another maker. Every run makes the same files.

    python3 make_office.py [FOLDER]

FOLDER exists; without it the files go into the folder of this script.
"""

import struct
import sys
from datetime import date, timedelta
from pathlib import Path

UPDATED = date(1987, 3, 2)
FIRST = "ADA BERTA CLARA DORA EMMA FRIEDA GRETA HANNA IDA JULIA KLARA LENA MARTA NORA OLGA PAULA ROSA SARA THEA VERA".split()
LAST = "ALBRECHT BAUER CONRAD DIETZ ENGEL FISCHER GRAF HOFMANN ITTNER JUNG KELLER LANG MAYER NEUMANN OTTO PETERS".split()
TOWNS = "AACHEN BONN CELLE DRESDEN ERFURT FULDA GOTHA HALLE".split()
GOODS = "BOLT NUT WASHER SCREW NAIL HINGE BRACKET HOOK CHAIN CLAMP".split()
SIZES = "3 4 5 6 8 10 12 16 20 24".split()
ACCOUNTS = "CASH RENT WAGES POST TRAVEL STOCK".split()


class Numbers:
    """Numbers that look like chance and are the same in every run."""

    def __init__(self, seed):
        self.now = seed

    def below(self, n):
        self.now = (self.now * 1103515245 + 12345) % 2**31
        return (self.now >> 8) % n


class Table:
    """A table's fields as (name, kind, width, decimals) and its records as (is deleted, values)."""

    def __init__(self, name, fields):
        self.name, self.fields, self.records = name, fields, []

    def add(self, *values, deleted=False):
        self.records.append((deleted, values))

    def cell(self, field, value, block):
        _, kind, width, decimals = field
        if kind == "C":
            return value.ljust(width).encode("ascii")
        if kind == "N":
            return f"{value:.{decimals}f}".rjust(width).encode("ascii")
        if kind == "L":
            return b"T" if value else b"F"
        if kind == "D":
            return value.strftime("%Y%m%d").encode("ascii") if value else b" " * 8
        return str(block).rjust(10).encode("ascii") if value else b" " * 10

    def images(self):
        """The bytes of the DBF file, and of the DBT file where there is an M field."""
        has_memos = any(kind == "M" for _, kind, _, _ in self.fields)
        width = 1 + sum(field[2] for field in self.fields)
        head = 32 + 32 * len(self.fields) + 1
        day = (UPDATED.year - 1900, UPDATED.month, UPDATED.day)
        dbf = struct.pack("<4BIHH20x", 0x83 if has_memos else 3, *day, len(self.records), head, width)
        for name, kind, size, decimals in self.fields:
            dbf += struct.pack("<11sc4xBB14x", name.encode(), kind.encode(), size, decimals)
        dbf += b"\r"
        texts, block = b"", 1
        for deleted, values in self.records:
            dbf += b"*" if deleted else b" "
            for field, value in zip(self.fields, values):
                dbf += self.cell(field, value, block)
                if field[1] == "M" and value:
                    text = value.encode("ascii") + b"\x1a\x1a"
                    text += bytes(-len(text) % 512)
                    texts, block = texts + text, block + len(text) // 512
        dbt = struct.pack("<I12xB495x", block, 3) + texts if has_memos else None
        return dbf + b"\x1a", dbt


def groups_of(items, most):
    """The items in groups of `most`; where the last group would have one item alone, the group before it gives
    it its last one, since an inner page with one child has no key."""
    groups = [items[i : i + most] for i in range(0, len(items), most)]
    if len(groups) > 1 and len(groups[-1]) == 1:
        groups[-1].insert(0, groups[-2].pop())
    return groups


def index_image(expression, keys):
    """The bytes of an NDX file with the keys of the records 1, 2, ..

    Pages are filled to three quarters, as inserts leave them. The root is page 1 and each level follows the
    one above it, so that no page stands where the server would put it."""
    length = len(keys[0])
    size = 8 + (length + 3) // 4 * 4  # of a key record: child, record number, key
    most = 504 // size
    fill = most * 3 // 4
    leaves = groups_of(sorted((key, number) for number, key in enumerate(keys, 1)), fill)
    levels = [[(leaf[-1][0], leaf) for leaf in leaves]]  # a page: its greatest key, and what it holds
    while len(levels[-1]) > 1:
        # what an inner page holds: the greatest key and the place of each child
        children = [(top, place) for place, (top, _) in enumerate(levels[-1])]
        levels.append([(group[-1][0], group) for group in groups_of(children, fill)])
    pages, first_below = b"", None
    first = 1
    for depth in range(len(levels) - 1, -1, -1):
        first_below = first + len(levels[depth])
        for _, held in levels[depth]:
            pages += leaf_page(held, size) if depth == 0 else inner_page(held, first_below, size)
        first = first_below
    head = struct.pack("<IIIHHHHHBB", 1, first, 0, length, most, 0, size, 0, 0, 0)
    return (head + expression.encode("ascii")).ljust(512, b"\0") + pages


def leaf_page(pairs, size):
    entries = b"".join((struct.pack("<II", 0, number) + key).ljust(size, b"\0") for key, number in pairs)
    return (struct.pack("<I", len(pairs)) + entries).ljust(512, b"\0")


def inner_page(children, first_below, size):
    """One key fewer than children: the last child has a pointer alone."""
    entries = b"".join((struct.pack("<II", first_below + place, 0) + top).ljust(size, b"\0") for top, place in children[:-1])
    last = struct.pack("<I", first_below + children[-1][1])
    return (struct.pack("<I", len(children) - 1) + entries + last).ljust(512, b"\0")


def text(value, width):
    return value.ljust(width).encode("ascii")


def dtoc(day):
    return day.strftime("%m/%d/%y").encode("ascii") if day else b"  /  /  "


def ledger():
    fields = [("DAY", "D", 8, 0), ("ACCOUNT", "C", 8, 0), ("ENTRY", "C", 20, 0), ("AMOUNT", "N", 10, 2), ("PAID", "L", 1, 0)]
    table = Table("LEDGER", fields)
    some = Numbers(1)
    for i in range(240):
        account = ACCOUNTS[some.below(len(ACCOUNTS))]
        day = date(1987, 1, 2) + timedelta(days=i // 4)
        table.add(day, account, f"VOUCHER {1001 + i}", some.below(90000) / 100 - 200, some.below(3) > 0, deleted=i % 60 == 59)
    by_account = [text(r[1][1], 8) + dtoc(r[1][0]) for r in table.records]
    return table, [("BYACCT", "ACCOUNT + DTOC(DAY)", by_account)]


def members():
    fields = [("NUMBER", "N", 5, 0), ("NAME", "C", 20, 0), ("TOWN", "C", 12, 0), ("BORN", "D", 8, 0), ("NOTE", "M", 10, 0)]
    table = Table("MEMBERS", fields)
    some = Numbers(2)
    for i in range(300):
        name = f"{LAST[some.below(len(LAST))]}, {FIRST[i % len(FIRST)]}"
        town = TOWNS[some.below(len(TOWNS))]
        born = date(1920, 1, 1) + timedelta(days=some.below(15000)) if i % 17 else None
        note = ""
        if i % 10 == 3:
            note = f"JOINED IN {1960 + i % 27}. PAYS BY {'CHEQUE' if i % 20 == 3 else 'CASH'}."
        if i % 50 == 7:
            note = ("WROTE TO US ABOUT THE SUMMER MEETING. " * 20).strip()
        table.add(101 + i, name, town, born, note, deleted=i % 75 == 40)
    names = [text(r[1][1], 20) for r in table.records]
    towns = [text(r[1][2], 12) + text(r[1][1], 20) for r in table.records]
    birthdays = [dtoc(r[1][3]) for r in table.records]
    return table, [("BYNAME", "NAME", names), ("BYTOWN", "TOWN + NAME", towns), ("BIRTHDAY", "DTOC(BORN)", birthdays)]


def stock():
    fields = [("CODE", "C", 8, 0), ("ARTICLE", "C", 24, 0), ("COUNT", "N", 6, 0), ("PRICE", "N", 8, 2)]
    table = Table("STOCK", fields)
    some = Numbers(3)
    for i, (good, size) in enumerate((g, s) for s in SIZES for g in GOODS):
        price = (some.below(2000) + 5) / 100
        table.add(f"{good[:2]}{i + 100:04}", f"{good.title()} {size} mm", some.below(500), price, deleted=i % 40 == 33)
    codes = [text(r[1][0], 8) for r in table.records]
    return table, [("BYCODE", "CODE", codes)]


def staff():
    """The staff list has no index: a station makes one."""
    fields = [("NAME", "C", 20, 0), ("BORN", "D", 8, 0), ("ROOM", "N", 3, 0)]
    table = Table("STAFF", fields)
    some = Numbers(4)
    for i in range(24):
        name = f"{LAST[i % len(LAST)]}, {FIRST[some.below(len(FIRST))]}"
        born = date(1925, 1, 1) + timedelta(days=some.below(14000))
        table.add(name, born, 101 + i // 2, deleted=i == 11)
    return table, []


def main():
    folder = Path(sys.argv[1]) if len(sys.argv) > 1 else Path(__file__).parent
    for table, indexes in (ledger(), members(), stock(), staff()):
        dbf, dbt = table.images()
        (folder / f"{table.name}.DBF").write_bytes(dbf)
        if dbt is not None:
            (folder / f"{table.name}.DBT").write_bytes(dbt)
        for name, expression, keys in indexes:
            (folder / f"{name}.NDX").write_bytes(index_image(expression, keys))


if __name__ == "__main__":
    main()
