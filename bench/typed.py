#!/usr/bin/env python3
"""Measures lines that are typed, on a folder of make_tables.py.

    python3 typed.py PROGRAM FOLDER

The lines of a script come to station_prompt, which lies beside the server PROGRAM, through a pipe; the server runs the same
script. Of the server the same without lines is taken off, and of the prompt a day of the first line alone, since one without lines
writes no tables. So what is left is the lines'. First the processor time a line, with the system's syncs switched off by a library
that is loaded before the C library, the least of five; without cc this is left out. Then the time by the clock of a line that is
synced, beside the two writes and the two syncs of its group alone, by hand: of lines that come one by one, each after the answer of
the one before, and of lines that are there together. This is left out where FOLDER lies in memory, since nothing is synced there.
"""

import os
import shutil
import subprocess
import sys
import tempfile
import time
from pathlib import Path

from beside import fresh
from no_syncs import built_in

RUNS = 5
SYNCED_LINES = 1000
# Lines that are there together are one group as far as they fill the buffer of the program's reader.
READ_AT_ONCE = 8192


def processor_seconds(words, folder, typed, preloaded):
    """The processor time of a process that is given these lines and ends well."""
    child = subprocess.Popen(
        words, cwd=folder, stdin=subprocess.PIPE, stdout=subprocess.DEVNULL, stderr=subprocess.DEVNULL, env={**os.environ, "LD_PRELOAD": str(preloaded)}
    )
    child.stdin.write(typed)
    child.stdin.close()
    _, status, used = os.wait4(child.pid, 0)
    child.returncode = os.waitstatus_to_exitcode(status)
    if child.returncode:
        sys.exit(f"{words[0]}: status {child.returncode}")
    return used.ru_utime + used.ru_stime


def without_syncs(server, prompt, folder, out, lines):
    """Prints the processor time a line, of the server and of the prompt, without syncs."""
    with tempfile.TemporaryDirectory() as made:
        library = built_in(made)
        if library is None:
            return
        for kind, indexes in (("PLAIN", 0), ("INDEXED", 1), ("THREE", 3)):
            rest = ["--today", "19870315", "--out", str(out)]
            jobs = [
                ([server, "--setup", f"{kind}-LONG.SET", *rest], b""),
                ([server, "--setup", f"{kind}-EMPTY.SET", *rest], b""),
                ([prompt, "--setup", f"{kind}-LONG.SET", *rest], b"".join(lines)),
                ([prompt, "--setup", f"{kind}-LONG.SET", *rest], lines[0]),
            ]
            times = []
            for _ in range(RUNS):
                row = []
                for words, typed in jobs:
                    fresh(out)
                    row.append(processor_seconds(words, folder, typed, library))
                times.append(row)
            script, empty, typed, first = (min(column) * 1e6 for column in zip(*times))
            by_server, by_prompt = (script - empty) / len(lines), (typed - first) / (len(lines) - 1)
            print(f"  a line, {indexes} indexes, no syncs{'':12} {by_server:8.2f} us   {by_prompt:8.2f} us   {by_prompt / by_server:5.2f} times")


def seconds_of(words, folder, typed):
    """The time of a process by the clock, with nothing left to be written by others before."""
    os.sync()
    start = time.monotonic()
    subprocess.run(words, cwd=folder, input=typed, stdout=subprocess.DEVNULL, stderr=subprocess.DEVNULL, check=True)
    return time.monotonic() - start


def seconds_one_by_one(words, folder, lines):
    """The time of lines by the clock, each typed after the answer of the one before. The first shows that the day has begun."""
    os.sync()
    child = subprocess.Popen(words, cwd=folder, stdin=subprocess.PIPE, stdout=subprocess.PIPE, stderr=subprocess.DEVNULL)
    start = None
    for line in lines:
        child.stdin.write(line)
        child.stdin.flush()
        if not child.stdout.readline():
            sys.exit(f"{words[0]}: no answer to {line!r}")
        start = start or time.monotonic()
    taken = time.monotonic() - start
    child.stdin.close()
    child.stdout.read()
    if child.wait():
        sys.exit(f"{words[0]}: status {child.returncode}")
    return taken


def seconds_by_hand(path, groups):
    """The time of groups by the clock, each written and synced, and then a byte before it."""
    path.write_bytes(b"-")
    os.sync()
    start, at = time.monotonic(), 0
    handle = os.open(path, os.O_WRONLY)
    for group in groups:
        os.pwrite(handle, group + b"-", at + 1)
        os.fdatasync(handle)
        os.pwrite(handle, b"+", at)
        os.fdatasync(handle)
        at += len(group) + 1
    os.close(handle)
    return time.monotonic() - start


def groups_of(lines):
    """The lines as they are put to the log where they are there together."""
    groups, group = [], b""
    for line in lines:
        if group and len(group) + len(line) > READ_AT_ONCE:
            groups.append(group)
            group = b""
        group += line
    return [*groups, group]


def with_syncs(prompt, folder, out, lines):
    """Prints the time of a synced line by the clock, and of its group's writes and syncs alone: of lines one by one, and together."""
    words = [prompt, "--setup", "INDEXED-MIXED.SET", "--today", "19870315", "--out", str(out)]
    rows = []
    for _ in range(RUNS):
        fresh(out)
        one_by_one = seconds_one_by_one(words, folder, lines) / (len(lines) - 1)
        fresh(out)
        typed = seconds_of(words, folder, b"".join(lines))
        fresh(out)
        first = seconds_of(words, folder, lines[0])
        fresh(out)
        each = seconds_by_hand(out / "BYHAND.LOG", lines) / len(lines)
        together = seconds_by_hand(out / "BYHAND.LOG", groups_of(lines)) / len(lines)
        rows.append((one_by_one, each, (typed - first) / (len(lines) - 1), together))
    least = [min(column) * 1e6 for column in zip(*rows)]
    for how, typed, by_hand in (("one by one", *least[:2]), ("together", *least[2:])):
        print(f"  a line, 1 index, synced, {how:10}    {typed:8.1f} us   {by_hand:8.1f} us by hand   {typed / by_hand:5.2f} times")


def is_in_memory(folder):
    """Whether the file system of a folder is one in memory, which has nothing to sync."""
    told = subprocess.run(["stat", "-f", "-c", "%T", str(folder)], capture_output=True, text=True)
    return told.stdout.strip() in ("tmpfs", "ramfs")


def main():
    server, folder = os.path.abspath(sys.argv[1]), Path(sys.argv[2]).resolve()
    prompt = os.path.join(os.path.dirname(server), "station_prompt")
    if not os.access(prompt, os.X_OK):
        prompt = os.path.join(os.path.dirname(server), "../../station_prompt/out/station_prompt")
    out = folder / "new"
    lines = (folder / "LONG.PRG").read_bytes().splitlines(keepends=True)
    print("\n  typed lines                              server        prompt")
    without_syncs(server, prompt, folder, out, lines)
    if is_in_memory(folder):
        print("  a line, synced: left out, since the folder lies in memory")
    else:
        with_syncs(prompt, folder, out, lines[:SYNCED_LINES])
    shutil.rmtree(out)


main()
