#!/usr/bin/env python3
"""Measures whole runs beside a model in C and beside SQLite, on a folder of make_tables.py.

    python3 beside.py PROGRAM FOLDER

The model is mark.c with mark_script.c and mark_memos.c, which cc builds; without cc, and without the program sqlite3, their columns
stay empty. Each job is done five times, by turns with the others: a time is the median of the processor time of the process and of
the system for it, with the least and the greatest in brackets. A ratio is that of two medians; `alike` stands where the times of both
overlap, or differ by less than a fifth. Where the model writes the same files, they are compared byte by byte. The commands of a
script are SQLite's by statements.py. Memory is the greatest of a run by the size of the files that it reads, where GNU time is.

A row is one of the tables of docs/BENCH.md, without its setup and its aims: fill.py puts it there.
"""

import itertools
import os
import shutil
import sqlite3
import statistics
import struct
import subprocess
import sys
from pathlib import Path

RUNS = 5
# Two times that differ by less are alike.
NOISE = 1.2
TIME = "/usr/bin/time"
INDEXES = ["BYCODE", "BYNAME", "BYREST"]
STATIONS, STATION_LINES = 16, 10_000
# The names of jobs, as docs/BENCH.md has them.
WHOLE = {0: "read and write all, no index", 1: "the same, 1 index", 3: "the same, 3 indexes"}
MEMOS, REINDEX, PACK = "memos, 1 index", "`--reindex`, 3 indexes", "PACK, 3 indexes"


def processor_seconds(words, folder, given=subprocess.DEVNULL):
    """The processor time of a process that ends well."""
    child = subprocess.Popen(words, cwd=folder, stdin=given, stdout=subprocess.DEVNULL)
    _, status, used = os.wait4(child.pid, 0)
    child.returncode = os.waitstatus_to_exitcode(status)
    if child.returncode:
        sys.exit(f"{words[0]}: status {child.returncode}")
    return used.ru_utime + used.ru_stime


def built_beside(program, name):
    """Another program: beside the server, or where it is built; None where it is not."""
    beside = os.path.dirname(program)
    places = [os.path.join(beside, name), os.path.join(beside, f"../../{name}/out/{name}")]
    return next((path for path in places if os.access(path, os.X_OK)), None)


def fresh(folder):
    shutil.rmtree(folder, ignore_errors=True)
    folder.mkdir()
    return folder


def records_of(path):
    """The cells of all records."""
    bytes = path.read_bytes()
    count, head, width = struct.unpack("<IHH", bytes[4:12])
    for at in range(head, head + count * width, width):
        row = bytes[at : at + width].decode("ascii")
        yield row[0] == "*", row[1:13], row[13:37], float(row[37:47]), row[47:60]


def notes_of(folder):
    """The cells of all records of the table with memos, and the text of each."""
    texts = (folder / "NOTES.DBT").read_bytes()[512:]
    for number, row in enumerate(records_of(folder / "NOTES.DBF")):
        block = texts[512 * number : 512 * number + 512]
        yield *row, block[: block.index(b"\x1a")].decode("ascii")


def make_base(path, rows, indexes, notes=""):
    path.unlink(missing_ok=True)
    base = sqlite3.connect(path)
    base.execute(f"create table t (marked, code, name, amount, rest{notes})")
    base.executemany(f"insert into t values (?, ?, ?, ?, ?{', ?' if notes else ''})", rows)
    for name in indexes:
        base.execute(f"create index {name} on t ({name[2:].lower()})")
    base.commit()
    base.close()


class Bench:
    def __init__(self, program, folder):
        self.program, self.folder, self.out = program, folder, folder / "new"
        self.mark = folder / "mark" if shutil.which("cc") else None
        self.sqlite = shutil.which("sqlite3")
        if self.mark:
            sources = [Path(__file__).resolve().parent / name for name in ("mark.c", "mark_script.c", "mark_memos.c")]
            subprocess.run(["cc", "-O2", "-o", self.mark, *sources], check=True)
        if self.sqlite:
            rows = list(records_of(folder / "MARKED.DBF"))
            for count in (0, 1, 3):
                make_base(folder / f"{count}.db", rows, INDEXES[:count])
            make_base(folder / "notes.db", notes_of(folder), INDEXES[:1], ", note")

    def server(self, setup, *options):
        words = [self.program, "--setup", setup, "--out", str(fresh(self.out)), "--today", "19870315", *options]
        return processor_seconds(words, self.folder)

    def model(self, indexes, *options, script=None, table="T", memos=False):
        """The model's time, over files that the server has just written."""
        made = fresh(self.folder / "made")
        words = [str(self.mark), *options]
        if script:
            words += ["--script", script, str(made / "STATION1.TXT")]
        if memos:
            words += ["--memos", f"{table}.DBT", str(made / f"{table}.DBT")]
        words += [f"{table}.DBF", str(made / f"{table}.DBF")]
        for name in indexes:
            words += [f"{name}.NDX", str(made / f"{name}.NDX")]
        seconds = processor_seconds(words, self.folder)
        for path in made.iterdir():
            if path.read_bytes() != (self.out / path.name).read_bytes():
                sys.exit(f"{path.name}: the model's file is another")
        return seconds

    def base(self, name, commands):
        """The time of a command on a copy of a base."""
        copy = self.folder / "copy.db"
        (self.folder / "into.db").unlink(missing_ok=True)
        shutil.copyfile(self.folder / f"{name}.db", copy)
        return processor_seconds([self.sqlite, str(copy), commands], self.folder)

    def asked(self, lines):
        """The time of SQLite's shell where each line asks for a number."""
        given = self.folder / "asked.sql"
        given.write_text("select 1;\n" * lines)
        with open(given) as questions:
            return processor_seconds([self.sqlite, ":memory:"], self.folder, questions)

    def commands(self, count, *words):
        """The time of the commands of scripts on a copy of a base, by an interpreter that is started for them."""
        copy = self.folder / "copy.db"
        shutil.copyfile(self.folder / f"{count}.db", copy)
        statements = Path(__file__).resolve().parent / "statements.py"
        return processor_seconds([sys.executable, str(statements), str(copy), *words], self.folder)

    def memory(self, setup, *options):
        """The greatest memory of a run, in bytes."""
        words = [self.program, "--setup", setup, "--out", str(fresh(self.out)), "--today", "19870315", *options]
        done = subprocess.run([TIME, "-f", "%M", *words], cwd=self.folder, capture_output=True, text=True, check=True)
        return 1024 * int(done.stderr)

    def times(self, jobs):
        """The times of each job, by turns, the least first; None where there is no job."""
        rounds = [[job() for job in jobs if job] for _ in range(RUNS)]
        columns = iter([sorted(column) for column in zip(*rounds)])
        return [next(columns) if job else None for job in jobs]


def told(times):
    """The median of some times, with the least and the greatest."""
    return f"{statistics.median(times):.3f} ({times[0]:.3f}-{times[-1]:.3f})" if times else ""


def ratio(times, beside):
    """The ratio of two medians, if they are not alike."""
    if not beside:
        return ""
    found = statistics.median(times) / statistics.median(beside)
    overlap = times[0] <= beside[-1] and beside[0] <= times[-1]
    return "alike" if overlap or 1 / NOISE < found < NOISE else f"{found:.2f}"


def show(job, times, model, base):
    print(f"  | {job} | {told(times)} | {told(base)} | {ratio(times, base)} | {told(model)} | {ratio(times, model)} |")


def show_memory(bench):
    print("\n  greatest memory, times the files that are read")
    three = [f"{it}.NDX" for it in INDEXES]
    for job, files, setup, *options in [
        (WHOLE[0], ["T.DBF"], "PLAIN-EMPTY.SET"),
        (WHOLE[1], ["T.DBF", *three[:1]], "INDEXED-EMPTY.SET"),
        (WHOLE[3], ["T.DBF", *three], "THREE-EMPTY.SET"),
        (REINDEX, ["T.DBF", *three], "THREE-EMPTY.SET", "--reindex"),
        (PACK, ["MARKED.DBF", *three], "MARKED-PACK.SET"),
        (MEMOS, ["NOTES.DBF", "NOTES.DBT", "ONNOTES.NDX"], "NOTES-EMPTY.SET"),
    ]:
        size = sum((bench.folder / name).stat().st_size for name in files)
        memory = bench.memory(setup, *options)
        print(f"  | {job} | {memory / size:.2f} | {memory / 1e6:.1f} MB |")


def show_runs(bench):
    """Whole runs without commands."""
    into = f"VACUUM INTO '{bench.folder / 'into.db'}'"
    for kind, count in (("PLAIN", 0), ("INDEXED", 1), ("THREE", 3)):
        jobs = [
            lambda: bench.server(f"{kind}-EMPTY.SET"),
            bench.mark and (lambda: bench.model(INDEXES[:count])),
            bench.sqlite and (lambda: bench.base(count, into)),
        ]
        show(WHOLE[count], *bench.times(jobs))
    jobs = [
        lambda: bench.server("NOTES-EMPTY.SET"),
        bench.mark and (lambda: bench.model(["ONNOTES"], table="NOTES", memos=True)),
        bench.sqlite and (lambda: bench.base("notes", into)),
    ]
    show(MEMOS, *bench.times(jobs))


def show_sorting(bench):
    jobs = [
        lambda: bench.server("THREE-EMPTY.SET", "--reindex"),
        bench.mark and (lambda: bench.model(INDEXES, "--reindex")),
        bench.sqlite and (lambda: bench.base(3, "REINDEX")),
    ]
    show(REINDEX, *bench.times(jobs))
    for name in INDEXES:
        field = name.removeprefix("BY")
        jobs = [
            lambda: bench.server(f"PLAIN-ON{field}.SET"),
            bench.mark and (lambda: bench.model([name], "--reindex")),
            bench.sqlite and (lambda: bench.base(0, f"create index {name} on t ({field.lower()})")),
        ]
        show(f"INDEX ON {field}", *bench.times(jobs))


def lines_of(bench, script):
    """How many lines a script has after its USE."""
    return (bench.folder / f"{script}.PRG").read_bytes().count(b"\n") - 1


def show_commands(bench):
    for script in ("MIXED", "LONG"):
        jobs = [
            lambda: bench.server(f"INDEXED-{script}.SET"),
            bench.mark and (lambda: bench.model(INDEXES[:1], script=f"{script}.PRG")),
            bench.sqlite and (lambda: bench.commands(1, f"{script}.PRG")),
        ]
        show(f"{lines_of(bench, script):,} commands, 1 index", *bench.times(jobs))
    lines = lines_of(bench, "ASKED")
    jobs = [lambda: bench.server("PLAIN-ASKED.SET"), None, bench.sqlite and (lambda: bench.asked(lines))]
    show(f"{lines:,} questions", *bench.times(jobs))
    scripts = write_sixteen(bench.folder)
    jobs = [lambda: bench.server("SIXTEEN.SET"), None, bench.sqlite and (lambda: bench.commands(0, "--each", *scripts))]
    show(f"{STATIONS} stations of {STATION_LINES:,} commands", *bench.times(jobs))
    for name in ("SIXTEEN.SET", *scripts):
        (bench.folder / name).unlink()


def show_packing(bench):
    pack = bench.sqlite and (lambda: bench.base(3, "delete from t where marked; VACUUM"))
    jobs = [lambda: bench.server("MARKED-EMPTY.SET"), lambda: bench.server("MARKED-PACK.SET"), pack]
    empty, packed, beside = bench.times(jobs)
    show(PACK, packed, None, beside)
    print(f"  that run by the one without PACK {statistics.median(packed) / statistics.median(empty):.2f}")


def write_sixteen(folder):
    """A setup of sixteen stations, each with a script of its own on records that no other goes to: GO, ? RLOCK() and REPLACE in turn."""
    scripts = [f"S{station}.PRG" for station in range(STATIONS)]
    for station, script in enumerate(scripts):
        numbers = range(station + 1, STATIONS * STATION_LINES, STATIONS)
        lines = (line for number in numbers for line in (f"GO {number}", "? RLOCK()", f'REPLACE NAME WITH "VISITED {number}"'))
        (folder / script).write_text("USE T\n" + "".join(f"{line}\n" for line in itertools.islice(lines, STATION_LINES)))
    (folder / "SIXTEEN.SET").write_text("TABLE T T.DBF\n" + "".join(f"STATION {script}\n" for script in scripts))
    return scripts


def main():
    bench = Bench(os.path.abspath(sys.argv[1]), Path(sys.argv[2]).resolve())
    print("\n  | job, processor time | server | sqlite3 | ratio | mark.c | ratio |")
    show_runs(bench)
    show_sorting(bench)
    show_commands(bench)
    show_packing(bench)
    if os.path.exists(TIME):
        show_memory(bench)
    for name in ("new", "made"):
        shutil.rmtree(bench.folder / name, ignore_errors=True)
    for name in ("0.db", "1.db", "3.db", "notes.db", "copy.db", "into.db", "asked.sql", "mark"):
        (bench.folder / name).unlink(missing_ok=True)


if __name__ == "__main__":
    main()
