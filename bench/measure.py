#!/usr/bin/env python3
"""Runs the program on a folder of make_tables.py, and prints times, memory and the targets beside them.

    python3 measure.py PROGRAM FOLDER

Each run is made three times, with new files in a fresh folder, and the least time counts.
"""

import os
import shutil
import struct
import subprocess
import sys
import time
from pathlib import Path

RUNS = 3
TIME = "/usr/bin/time"
READ_AND_WRITE, COPIES, MEMORY, COMMAND = 0.6, 4.0, 4.0, 2.0  # the targets: µs, times, times, µs


def judged(figure, target):
    return f"{figure:8.2f}  (at most {target:g}: {'yes' if figure <= target else 'NO'})"


def fresh(folder):
    shutil.rmtree(folder, ignore_errors=True)
    folder.mkdir()
    return folder


def copy_seconds(paths, out):
    """The time in which the files are read and written, 64 KiB at a time and in this process, without a call that
    copies within the system."""
    fresh(out)
    start = time.perf_counter()
    for path in paths:
        with open(path, "rb", buffering=0) as old, open(out / path.name, "wb", buffering=0) as new:
            while part := old.read(65536):
                new.write(part)
    return time.perf_counter() - start


def run(program, folder, setup, out):
    """Seconds, the commands that were counted, and the refused ones."""
    fresh(out)
    words = [program, "--setup", setup, "--out", str(out), "--today", "19870315"]
    start = time.perf_counter()
    ended = subprocess.run(words, cwd=folder, stdout=subprocess.PIPE)
    seconds = time.perf_counter() - start
    said = ended.stdout.decode()
    if ended.returncode or not said.startswith("station_server: "):
        sys.exit(f"{setup}: status {ended.returncode}, printed {said!r}")
    refused = (out / "STATION1.TXT").read_bytes().count(b"REFUSED ")
    return seconds, int(said.split()[1]), refused


def peak_memory(program, folder, setup, out):
    """Peak memory in bytes, in a run of its own. Of a child that Python starts the system counts Python's own memory
    too, some 10 MB, so the program is started by `time` where there is one."""
    fresh(out)
    words = [program, "--setup", setup, "--out", str(out), "--today", "19870315"]
    if os.path.exists(TIME):
        said = subprocess.run([TIME, "-f", "%M", *words], cwd=folder, stdout=subprocess.DEVNULL, stderr=subprocess.PIPE)
        return int(said.stderr.split()[-1]) * 1024
    child = subprocess.Popen(words, cwd=folder, stdout=subprocess.DEVNULL)
    return os.wait4(child.pid, 0)[2].ru_maxrss * 1024


def main():
    program, folder = os.path.abspath(sys.argv[1]), Path(sys.argv[2]).resolve()
    out = folder / "new"
    records = struct.unpack("<I", (folder / "T.DBF").read_bytes()[4:8])[0]
    for kind, names in (("PLAIN", ["T.DBF"]), ("INDEXED", ["T.DBF", "BYCODE.NDX"])):
        files = [folder / name for name in names]
        where = "with index" if kind == "INDEXED" else "without index"
        size = sum(file.stat().st_size for file in files)
        copied = min(copy_seconds(files, out) for _ in range(RUNS))
        print(f"\n{records:,} records, {where}: {size / 1e6:.1f} MB of files")
        print(f"  copying them                {copied * 1e3:10.1f} ms")
        for script in ("EMPTY", "MIXED", "BYNUMBER"):
            runs = [run(program, folder, f"{kind}-{script}.SET", out) for _ in range(RUNS)]
            seconds, commands, refused = min(runs)
            memory = peak_memory(program, folder, f"{kind}-{script}.SET", out)
            print(f"  {script:8} {commands:6} commands {seconds * 1e3:12.1f} ms, {refused} refused")
            if script == "EMPTY":
                empty = seconds
                each = seconds / records * 1e6
                print(f"    µs a record, read and written {judged(each, READ_AND_WRITE)}")
                ratio = seconds / copied
                told = f"{ratio:8.2f}"
                if kind == "PLAIN":
                    told = judged(ratio, COPIES)
                print(f"    times the copying             {told}")
            else:
                each = (seconds - empty) / commands * 1e6
                told = f"{each:8.2f}"
                if script == "BYNUMBER":
                    told = judged(each, COMMAND)
                print(f"    µs a command                  {told}")
            print(f"    peak memory, times the files  {judged(memory / size, MEMORY)}   {memory / 1e6:.1f} MB")
    shutil.rmtree(out)


main()
