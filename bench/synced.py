#!/usr/bin/env python3
"""Measures whole runs whose new files are forced to the disk, on a folder of make_tables.py.

    python3 synced.py PROGRAM FOLDER

The server runs into a folder that has all the files already, so that it replaces them. Beside it the same files are written by
hand in the same manner (beside their names, synced, renamed, the folder synced), and SQLite (where the program sqlite3 is) makes
`VACUUM INTO` with `synchronous=FULL`. A time is by the clock, from the start of a process to its end, with nothing left to be
written by others before; the least of five counts, by turns.
"""

import os
import shutil
import subprocess
import sys
import time
from pathlib import Path

from beside import INDEXES, make_base, records_of

RUNS = 5
PIECE = 65536


def seconds(work):
    """The time of some work by the clock, after all that others wrote is on the disk."""
    os.sync()
    start = time.monotonic()
    work()
    return time.monotonic() - start


def run(words, folder):
    if subprocess.run(words, cwd=folder, stdout=subprocess.DEVNULL).returncode:
        sys.exit(f"{words[0]}: failed")


def sync_folder(folder):
    handle = os.open(folder, os.O_RDONLY)
    os.fsync(handle)
    os.close(handle)


def copy_synced(old, new):
    with open(old, "rb") as source, open(new, "wb") as file:
        while piece := source.read(PIECE):
            file.write(piece)
        file.flush()
        os.fsync(file.fileno())


def replace_by_hand(made, folder):
    """Replaces a folder's files by those of another: all beside their names, then all in their places."""
    names = [path.name for path in made.iterdir()]
    for name in names:
        copy_synced(made / name, folder / f"~{name}")
    sync_folder(folder)
    for name in names:
        os.rename(folder / f"~{name}", folder / name)
    sync_folder(folder)


def main():
    program, folder = os.path.abspath(sys.argv[1]), Path(sys.argv[2]).resolve()
    sqlite = shutil.which("sqlite3")
    made, places, into = folder / "made", folder / "places", folder / "into.db"
    rows = list(records_of(folder / "T.DBF"))
    print("\n  new files on the disk, by the clock          server      by hand      sqlite3")
    for kind, count in (("PLAIN", 0), ("INDEXED", 1), ("THREE", 3)):
        base = folder / f"{count}.db"
        make_base(base, rows, INDEXES[:count])
        for path in (made, places):
            shutil.rmtree(path, ignore_errors=True)
            path.mkdir()
        words = [program, "--setup", f"{kind}-EMPTY.SET", "--today", "19870315", "--out"]
        run([*words, str(made)], folder)
        run([*words, str(places)], folder)
        query = f"PRAGMA synchronous=FULL; VACUUM INTO '{into}'"
        jobs = [lambda: run([*words, str(places)], folder), lambda: replace_by_hand(made, places)]
        jobs += [lambda: run([sqlite, str(base), query], folder)] if sqlite else []
        times = []
        for _ in range(RUNS):
            into.unlink(missing_ok=True)
            times.append([seconds(job) for job in jobs])
        least = "   ".join(f"{min(column):8.3f} s" for column in zip(*times))
        print(f"  write all, {count} indexes{'':20} {least}")
        base.unlink()
    for path in (made, places):
        shutil.rmtree(path)
    into.unlink(missing_ok=True)


if __name__ == "__main__":
    main()
