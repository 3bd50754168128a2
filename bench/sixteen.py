#!/usr/bin/env python3
"""Measures the memory of a command in runs of sixteen stations, on a folder of make_tables.py.

    python3 sixteen.py PROGRAM FOLDER [LINES]

Each station has a script of LINES commands (100,000) of its own, on records that no other station goes to. The memory of a
command is the greatest memory of the run over that of a run of sixteen empty scripts, by the commands of all stations; it has the
entry of the journal, the text of the answer and that of the script's line in it, which is said too. It takes GNU time.
"""

import os
import shutil
import struct
import subprocess
import sys
from pathlib import Path

STATIONS = 16
TIME = "/usr/bin/time"


def moves(number):
    return [f"GO {number}", "? RECNO()"]


def changes(number):
    return [f"GO {number}", "? RLOCK()", f'REPLACE NAME WITH "VISITED {number}"']


def write_setup(folder, records, lines, commands):
    """A setup of scripts of so many lines; empty ones where there are no commands. It answers the scripts' bytes."""
    for station in range(STATIONS):
        text = ["USE T"]
        number = station + 1
        while commands and len(text) < lines:
            text += commands(number)
            number = (number + STATIONS - 1) % (records - records % STATIONS) + 1
        (folder / f"S{station}.PRG").write_text("".join(f"{line}\n" for line in text[:lines]) if commands else "")
    stations = "".join(f"STATION S{station}.PRG\n" for station in range(STATIONS))
    (folder / "SIXTEEN.SET").write_text(f"TABLE T T.DBF\n{stations}")
    return sum((folder / f"S{station}.PRG").stat().st_size for station in range(STATIONS))


def greatest_memory(program, folder):
    """The greatest memory of a run, in bytes, and its commands."""
    out = folder / "new"
    shutil.rmtree(out, ignore_errors=True)
    out.mkdir()
    words = [program, "--setup", "SIXTEEN.SET", "--out", str(out), "--today", "19870315"]
    done = subprocess.run([TIME, "-f", "%M", *words], cwd=folder, capture_output=True, text=True, check=True)
    shutil.rmtree(out)
    return 1024 * int(done.stderr), int(done.stdout.split()[1])


def main():
    program, folder = os.path.abspath(sys.argv[1]), Path(sys.argv[2]).resolve()
    lines = int(sys.argv[3]) if len(sys.argv) > 3 else 100000
    records = struct.unpack("<I", (folder / "T.DBF").read_bytes()[4:8])[0]
    write_setup(folder, records, lines, None)
    empty, _ = greatest_memory(program, folder)
    print(f"\n{records:,} records, {STATIONS} stations; empty scripts {empty / 1e6:.1f} MB")
    for job, commands in (("GO, ? RECNO()", moves), ("GO, ? RLOCK(), REPLACE", changes)):
        script = write_setup(folder, records, lines, commands)
        memory, count = greatest_memory(program, folder)
        print(f"  {job:24} {count:9,} commands {memory / 1e6:8.1f} MB {(memory - empty) / count:7.1f} bytes a command, {script / count:.1f} of them its line")
    for name in ("SIXTEEN.SET", *(f"S{station}.PRG" for station in range(STATIONS))):
        (folder / name).unlink()


if __name__ == "__main__":
    main()
