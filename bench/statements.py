#!/usr/bin/env python3
"""Performs the commands of scripts of make_tables.py and beside.py on a SQLite base of beside.py.

    python3 statements.py BASE [--each] SCRIPT..

The cursor is kept here; each command is one prepared statement, and those that move by the order ask the index. All commands of a script
are one transaction; with --each every change is a transaction of its own, as where other stations look on, and none is synced. Questions
for locks are passed over.
"""

import sqlite3
import sys

WIDTHS = {"CODE": 12, "NAME": 24, "REST": 13}
MOVES = {
    "SKIP": "select rowid from t where (code, rowid) > (select code, rowid from t where rowid = ?) order by code, rowid limit 1",
    "SKIP -1": "select rowid from t where (code, rowid) < (select code, rowid from t where rowid = ?) order by code desc, rowid desc limit 1",
}
SEEK = "select rowid from t where code >= ? order by code, rowid limit 1"
APPEND = f"insert into t values (' ', '{'':12}', '{'':24}', 0, '{'':13}')"


def replace(base, at, rest):
    field, _, value = rest.partition(" WITH ")
    cell = value.strip('"').ljust(WIDTHS[field]) if field in WIDTHS else float(value)
    base.execute(f"update t set {field.lower()} = ? where rowid = ?", (cell, at))


def perform(base, path):
    at = 1
    for line in open(path).read().splitlines()[1:]:
        word, _, rest = line.partition(" ")
        if line in MOVES:
            (at,) = base.execute(MOVES[line], (at,)).fetchone()
        elif word == "SEEK":
            (at,) = base.execute(SEEK, (rest.strip('"'),)).fetchone()
        elif word == "APPEND":
            at = base.execute(APPEND).lastrowid
        elif word == "GO":
            at = int(rest)
        elif word == "REPLACE":
            replace(base, at, rest)


def main():
    path, *scripts = sys.argv[1:]
    base = sqlite3.connect(path, isolation_level=None)
    if scripts[0] == "--each":
        base.execute("pragma synchronous = off")
        for script in scripts[1:]:
            perform(base, script)
        return
    for script in scripts:
        base.execute("begin")
        perform(base, script)
        base.execute("commit")


main()
