#!/usr/bin/env python3
"""Measures how the time of a setup grows with its lines.

    python3 setups.py PROGRAM FOLDER

A setup of 10, 100, 1,000 and 10,000 tables, each with an index of its own, and no station: the server reads it, loads its files, and refuses
it; table_tool, where it lies beside PROGRAM, checks it. Each has a copy of the first table and of one index of the demo. The least processor
time of three counts, and the exponent with which it grows from the line before.
"""

import math
import os
import shutil
import subprocess
import sys
from pathlib import Path

from beside import built_beside

RUNS = 3
COUNTS = (10, 100, 1000, 10000)
DEMO = Path(__file__).resolve().parent.parent / "demo"


def make_setup(folder, count):
    """Files of so many tables and indexes, and the setup that names them."""
    table, index = (DEMO / "STAFF.DBF").read_bytes(), (DEMO / "BYNAME.NDX").read_bytes()
    lines = []
    for number in range(count):
        (folder / f"T{number:06}.DBF").write_bytes(table)
        (folder / f"I{number:06}.NDX").write_bytes(index)
        lines.append(f"TABLE T{number:06} T{number:06}.DBF\nINDEX T{number:06} I{number:06} I{number:06}.NDX\n")
    (folder / "OFFICE.SET").write_text("".join(lines))


def seconds(words, folder):
    """The processor time of a process, and its status."""
    child = subprocess.Popen(words, cwd=folder, stdout=subprocess.DEVNULL, stderr=subprocess.DEVNULL)
    _, status, used = os.wait4(child.pid, 0)
    child.returncode = os.waitstatus_to_exitcode(status)
    return used.ru_utime + used.ru_stime, child.returncode


def main():
    program, folder = os.path.abspath(sys.argv[1]), Path(sys.argv[2]).resolve() / "setups"
    tool = built_beside(program, "table_tool")
    print("\n  setups of many tables, processor time                server             check")
    last = {}
    for count in COUNTS:
        shutil.rmtree(folder, ignore_errors=True)
        (folder / "new").mkdir(parents=True)
        make_setup(folder, count)
        jobs = [[program, "--setup", "OFFICE.SET", "--out", "new", "--today", "19870315"]]
        jobs += [[tool, "check", "OFFICE.SET"]] if tool else []
        told = []
        for at, words in enumerate(jobs):
            least, status = min(seconds(words, folder) for _ in range(RUNS))
            grown = f"exponent {math.log(least / last[at]) / math.log(10):4.2f}" if at in last else " " * 13
            last[at] = least
            told.append(f"{least:8.3f} s, status {status}, {grown}")
        print(f"  {count:6,} tables with an index each   {'   '.join(told)}")
    shutil.rmtree(folder)


main()
