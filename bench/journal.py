#!/usr/bin/env python3
"""Measures what a run takes more that writes its journal, and an audit of it, on a folder of make_tables.py.

    python3 journal.py PROGRAM FOLDER

A run with --journal sums each file that it reads and each that it writes. Beside the run without and with it the program sha256sum sums
the same files, and station_audit, where it lies beside PROGRAM, audits the journal. Each job is done five times, by turns with the others,
and the least processor time of each counts, of the process and of the system for it. Memory is the greatest of a run, where GNU time is.
"""

import os
import shutil
import subprocess
import sys
from pathlib import Path

from beside import TIME, built_beside, fresh, processor_seconds

RUNS = 5


def files_told(text, out):
    """The paths in a journal's lines of files; those that were written are in the folder."""
    lines = [line.split(" ", 4) for line in text.splitlines()]
    return [words[4] if words[0] == "read" else str(out / words[4]) for words in lines if words[0] in ("read", "wrote")]


def greatest_memory(words, folder):
    """The greatest memory of a run, in bytes."""
    done = subprocess.run([TIME, "-f", "%M", *words], cwd=folder, capture_output=True, text=True, check=True)
    return int(done.stderr.split()[-1]) * 1024


def main():
    program, folder = os.path.abspath(sys.argv[1]), Path(sys.argv[2]).resolve()
    out, audit = folder / "new", built_beside(program, "station_audit")
    print("\n  a journal, processor time                     without         with    sha256sum        audit       bytes summed    memory")
    for job, setup in (
        ("write all, 0 indexes", "PLAIN-EMPTY.SET"),
        ("write all, 1 index", "INDEXED-EMPTY.SET"),
        ("write all, 3 indexes", "THREE-EMPTY.SET"),
        ("100,000 commands, 1 index", "INDEXED-LONG.SET"),
    ):
        words = [program, "--setup", setup, "--today", "19870315", "--out", str(out)]
        times, memory = [], []
        for _ in range(RUNS):
            fresh(out)
            plain = processor_seconds(words, folder)
            fresh(out)
            journalled = processor_seconds([*words, "--journal"], folder)
            journal = str(out / "JOURNAL.TXT")
            paths = files_told(Path(journal).read_text(), out)
            summed = processor_seconds(["sha256sum", *paths], folder)
            audited = processor_seconds([audit, "--setup", setup, "--journal", journal], folder) if audit else 0
            times.append([plain, journalled, summed, audited])
        if shutil.which(TIME):
            for options in ([], ["--journal"]):
                fresh(out)
                memory.append(f"{greatest_memory([*words, *options], folder) / 1e6:.0f} MB")
        least = "   ".join(f"{min(column):8.3f} s" for column in zip(*times))
        size = sum((folder / path).stat().st_size for path in paths)
        print(f"  {job:38} {least}   {size:12,} bytes   {' and '.join(memory)}")


main()
