#!/usr/bin/env python3
"""Measures table_tool's show, load and diff on a folder of make_tables.py, beside sqlite3's .import and the reading of the same tables.

    python3 tool.py TABLE_TOOL FOLDER

The records of T.DBF go out as CSV and are loaded into an empty table of its fields; sqlite3, where it is, imports the same file into a
base of its own. T.DBF is compared with tables that this makes: by number with one that has another amount in each hundredth record, by key
with one that lacks each thousandth record, too. Reading is `show` of one record of both tables, and sorting is `sort` of the CSV file.
Each job is done three times, by turns, and the least processor time counts.
"""

import os
import shutil
import struct
import subprocess
import sys
from pathlib import Path

RUNS = 3
TODAY = ["--today", "19870315"]


def processor_seconds(words, folder, wanted=(0,), into=subprocess.DEVNULL):
    """The processor time of a process, whose status is one of those that are wanted."""
    child = subprocess.Popen(words, cwd=folder, stdout=into, env={**os.environ, "LC_ALL": "C"})
    _, status, used = os.wait4(child.pid, 0)
    child.returncode = os.waitstatus_to_exitcode(status)
    if child.returncode not in wanted:
        sys.exit(f"{words[0]}: status {child.returncode}")
    return used.ru_utime + used.ru_stime


def write_changed(old, new, is_packed):
    """The table with another amount in some of its records, and without some."""
    data = bytearray(old.read_bytes())
    count, head, width = struct.unpack("<IHH", data[4:12])
    rows = []
    for number in range(1, count + 1):
        row = data[head + (number - 1) * width : head + number * width]
        if number % 100 == 0:
            row[37:47] = b"      1.25"
        if number % 1000 or not is_packed:
            rows.append(bytes(row))
    data[4:8] = struct.pack("<I", len(rows))
    new.write_bytes(bytes(data[:head]) + b"".join(rows) + b"\x1a")


def least(jobs):
    """The least time of each job, by turns."""
    return [min(column) for column in zip(*([job() for job in jobs] for _ in range(RUNS)))]


class Bench:
    def __init__(self, tool, folder):
        self.tool, self.folder, self.sqlite = tool, folder, shutil.which("sqlite3")
        for name, words in (("T.CSV", ["csv", "T.DBF"]), ("FIELDS.TXT", ["fields", "T.DBF"])):
            with open(folder / name, "wb") as into:
                self.run(*words, into=into)
        self.run("make", "FIELDS.TXT", "--out", "EMPTY.DBF", *TODAY, "--replace")
        write_changed(folder / "T.DBF", folder / "CHANGED.DBF", False)
        write_changed(folder / "T.DBF", folder / "PACKED.DBF", True)

    def run(self, *words, wanted=(0,), into=subprocess.DEVNULL):
        return processor_seconds([self.tool, *words], self.folder, wanted, into)

    def load(self):
        return self.run("load", "T.CSV", "--into", "EMPTY.DBF", "--out", "LOADED.DBF", *TODAY, "--replace")

    def imported(self):
        (self.folder / "import.db").unlink(missing_ok=True)
        return processor_seconds([self.sqlite, "import.db", "-cmd", ".mode csv", ".import T.CSV t"], self.folder)

    def reading(self):
        return sum(self.run("show", name, "--records", "1") for name in ("T.DBF", "CHANGED.DBF"))

    def diff(self, other, *options):
        return self.run("diff", "T.DBF", other, *options, wanted=(1,))

    def show(self, *options):
        return self.run("show", "T.DBF", *options)

    def sort(self):
        return processor_seconds(["sort", "--parallel=1", "T.CSV"], self.folder)


def main():
    bench = Bench(os.path.abspath(sys.argv[1]), Path(sys.argv[2]).resolve())
    print("\n  job, processor time                     table_tool   beside it")
    order, plain = least([lambda: bench.show("--order", "BYCODE.NDX"), bench.show])
    print(f"  show --order{order:36.3f} s   {plain:.3f} s, show")
    if bench.sqlite:
        load, imported = least([bench.load, bench.imported])
        print(f"  load of all records{load:29.3f} s   {imported:.3f} s, sqlite3's .import")
    number, reading = least([lambda: bench.diff("CHANGED.DBF"), bench.reading])
    print(f"  diff by number{number:34.3f} s   {reading:.3f} s, reading both")
    key, sort = least([lambda: bench.diff("PACKED.DBF", "--key", "CODE"), bench.sort])
    print(f"  diff --key CODE{key:33.3f} s   {reading:.3f} s, reading both; {sort:.3f} s, sort of the CSV file")
    for name in ("T.CSV", "FIELDS.TXT", "EMPTY.DBF", "LOADED.DBF", "CHANGED.DBF", "PACKED.DBF", "import.db"):
        (bench.folder / name).unlink(missing_ok=True)


if __name__ == "__main__":
    main()
