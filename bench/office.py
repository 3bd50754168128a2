#!/usr/bin/env python3
"""Measures the demo office by the clock.

    python3 office.py PROGRAM FOLDER

The server runs the five stations of the demo with its journal into a folder that has all new files already, so that it replaces them: a run that
mostly waits for the disk. Beside it the same with the system's syncs switched off by a library that is loaded before the C library, where cc is,
and 18 files of the same kind written by hand, each synced in turn. By turns, 20 times; the least and the median.
"""

import os
import statistics
import subprocess
import sys
import tempfile
from pathlib import Path

from beside import fresh
from no_syncs import built_in
from synced import copy_synced, seconds, sync_folder

RUNS = 20
DEMO = Path(__file__).resolve().parent.parent / "demo"


def main():
    program, out = os.path.abspath(sys.argv[1]), fresh(Path(sys.argv[2]).resolve() / "office")
    words = [program, "--setup", "OFFICE.SET", "--today", "19870315", "--journal", "--out", str(out)]

    def run(**environment):
        subprocess.run(words, cwd=DEMO, stdout=subprocess.DEVNULL, stderr=subprocess.DEVNULL, check=True, env={**os.environ, **environment})

    run()
    files = sorted(out.iterdir())
    hand = fresh(out.with_name("hand"))

    def by_hand():
        for path in files:
            copy_synced(path, hand / path.name)
        sync_folder(hand)

    jobs = {"the demo office": run, f"{len(files)} such files by hand": by_hand}
    with tempfile.TemporaryDirectory() as made:
        library = built_in(made)
        if library:
            jobs["the demo office without syncs"] = lambda: run(LD_PRELOAD=str(library))
        rounds = [[seconds(job) for job in jobs.values()] for _ in range(RUNS)]
    print("\n  by the clock                                   least       median")
    for name, column in zip(jobs, zip(*rounds)):
        print(f"  {name:40} {min(column) * 1e3:8.1f} ms  {statistics.median(column) * 1e3:8.1f} ms")


main()
