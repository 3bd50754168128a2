"""A small office of two stations, its days of station_prompt, and what the tools of these days share."""

import contextlib
import itertools
import os
import re
import shutil
import signal
import subprocess

import live
import office
from live import LOG, NAME, TODAY, Entry, again
from office import DEMO, SECONDS, files_of

SETUP = "OFFICE.SET"
SETUP_LINES = [b"TABLE STOCK STOCK.DBF", b"INDEX STOCK BYCODE BYCODE.NDX", b"TABLE MEMBERS MEMBERS.DBF MEMBERS.DBT", b"STATION STOCK.PRG", b"STATION STAFF.PRG"]
# The tables, indexes and memo files of the setup: what a day reads beside it.
INPUTS = ["STOCK.DBF", "BYCODE.NDX", "MEMBERS.DBF", "MEMBERS.DBT"]
# The lines of the day, each with its station. Changes of one digit or letter make commands of some of them that would be performed, too.
LINES = [
    (1, b"USE STOCK EXCLUSIVE"), (1, b"GO 5"), (1, b"REPLACE COUNT WITH 11"), (2, b"USE MEMBERS EXCLUSIVE"), (2, b"GO 3"), (1, b"? COUNT"),
    (1, b"GO 4"), (2, b"DELETE"),
]
# What a start says of a file that is another than its log has.
OTHER_FILE = "is not the file with which the day of the log began"


def setup_of(lines):
    return b"".join(line + b"\n" for line in lines)


def old_files():
    """The office's folder before a day, with last week's answers."""
    names = [*INPUTS, "STOCK.PRG", "STAFF.PRG"]
    files = {name: (DEMO / name).read_bytes() for name in names} | {SETUP: setup_of(SETUP_LINES)}
    return files | {f"STATION{number}.TXT": b"last week's answers\n" for number in (1, 2)}


class Ended(office.Ended):
    """How a program ended, with the files of its folder then."""

    def __init__(self, status, printed, complained, files):
        super().__init__(status, printed, complained, files)
        self.shown = printed.split("\n")[:-1]

    def __str__(self):
        return f"status {self.status}: {self.printed[-200:]!r}, {self.complained[-300:]!r}, log {self.files.get(LOG)!r:.120}; files {sorted(self.files)}"


class Tried:
    """What a part has tried: counts of ends, and the first one that is otherwise. It is printed as one line."""

    def __init__(self, title):
        self.title, self.counts, self.wrong, self.others = title, {}, None, 0

    def add(self, came, what, ended):
        """An end in one of the ways that may be, in words; or None, of what was tried so."""
        if came is None:
            self.others += 1
            self.wrong = self.wrong or f"{what}: {ended}"
        else:
            self.counts[came] = self.counts.get(came, 0) + 1

    def tell(self):
        total = sum(self.counts.values()) + self.others
        ends = ", ".join(f"{count} {came}" for came, count in sorted(self.counts.items()))
        said = "as it should" if not self.others else f"{self.others} OTHERWISE, the first {self.wrong}"
        print(f"    {self.title}: {total} tried{': ' if ends else ''}{ends}: {said}", flush=True)
        return total, self.others


class SmallOffice:
    """The small office, the programs, and where their folders are made."""

    def __init__(self, programs, library, work, pool, step):
        self.programs, self.library, self.work, self.pool, self.step = programs, library, work, pool, step
        self.numbers = itertools.count()
        self.old, self.ends = old_files(), {}
        whole = self.day(self.old, live.typed(LINES))
        self.answers, self.whole = whole.shown[: len(LINES)], whole.files
        if whole.status != 0 or whole.shown != [*self.answers, f"{NAME}: {len(LINES)} commands"]:
            raise SystemExit(f"faults/days: OTHERWISE: a day without a fault: {whole}")
        self.entries = [Entry(at, line, answer.encode()) for (at, line), answer in zip(LINES, self.answers)]
        self.open = self.killed(self.old, LINES)
        self.log = self.open[LOG]

    # ---- folders and programs

    @contextlib.contextmanager
    def folder(self, files, *others):
        """A new folder with these files, and others beside it."""
        top = self.work / str(next(self.numbers))
        os.mkdir(top)
        office.fill(top / "OFFICE", files)
        for name in others:
            os.mkdir(top / name)
        try:
            yield top / "OFFICE"
        finally:
            shutil.rmtree(top)

    def words(self, program, *words):
        return [self.programs[program], *map(str, words)]

    def prompt(self, setup=SETUP, out="."):
        return self.words("station_prompt", "--setup", setup, "--out", out, "--today", TODAY)

    def ran(self, folder, words, text=b"", **variables):
        """A program that was started in a folder with this input, and variables of fail.c."""
        names = {"LD_PRELOAD": self.library, **variables} if variables else {}
        try:
            ended = subprocess.run(words, cwd=folder, env={n: str(v) for n, v in names.items()}, input=text, capture_output=True, timeout=SECONDS)
        except subprocess.TimeoutExpired:
            return Ended(None, "", "no end", files_of(folder))
        return Ended(ended.returncode, ended.stdout.decode(), ended.stderr.decode(), files_of(folder))

    def day(self, files, text=b"", setup=SETUP, **variables):
        """A day in a folder of its own in which all this is typed at once."""
        with self.folder(files) as folder:
            return self.ran(folder, self.prompt(setup), text, **variables)

    @contextlib.contextmanager
    def started(self, folder, words, **streams):
        """A program whose lines are typed one after another. It is killed in the end if it runs still."""
        streams = {"stdin": subprocess.PIPE, "stdout": subprocess.PIPE, "stderr": subprocess.PIPE, **streams}
        with subprocess.Popen(words, cwd=folder, env={}, **streams) as program:
            try:
                yield program
            finally:
                program.kill()

    def killed_in(self, folder, lines, words=None):
        """A day in this folder that is killed once these lines are answered, one after another; the files then."""
        station = 1
        with self.started(folder, words or self.prompt()) as program:
            for at, line in lines:
                program.stdin.write(live.typed([(at, line)], station))
                program.stdin.flush()
                station = at
                program.stdout.readline()
            program.kill()
            program.wait()
        return files_of(folder)

    def killed(self, files, lines):
        with self.folder(files) as folder:
            return self.killed_in(folder, lines)

    def calls(self, files, text=b"", words=None, **variables):
        """The calls on files of a day without a fault, in order: what each is, and of what."""
        log = self.work / f"log{next(self.numbers)}"
        with self.folder(files) as folder:
            self.ran(folder, words or self.prompt(), text, FAULT_LOG=log, **variables)
        found = [line.partition(" ")[::2] for line in log.read_text().splitlines()]
        log.unlink()
        return found

    # ---- how a start over an open day may end

    def performed(self, ended, count):
        """Whether a start without a line has performed so many commands again, and closed the day with the files of these."""
        closed = ended.status == 0 and ended.complained == again(self.entries[:count]) and ended.shown == [f"{NAME}: {count} commands"]
        return closed and ended.files == self.end_of(count)

    def end_of(self, count):
        """The files of the end of a day of so many commands."""
        if count == len(LINES):
            return self.whole
        if count not in self.ends:
            self.ends[count] = self.day(self.old, live.typed(LINES[:count])).files
        return self.ends[count]

    def refused(self, ended, files):
        """Whether a start was refused, named the entry or the file of the log, and left each file as it was."""
        is_named = ended.complained == live.NO_LOG or re.fullmatch(f"{NAME}: .* of the log.*\n", ended.complained)
        return ended.status == 5 and bool(is_named) and ended.printed == "" and ended.files == files

    def each(self, title, tries, judge, step=None):
        """Tries each of these, in pairs of what is told of it and what it is, side by side, and tells how they ended. `judge` answers words, or
        None where it ended otherwise, and the end."""
        tried = Tried(title)
        chosen = list(tries)[:: step or self.step]
        for (what, _), (came, ended) in zip(chosen, self.pool.map(lambda it: judge(it[1]), chosen)):
            tried.add(came, what, ended)
        return tried.tell()


def killed_at(ended):
    return ended.status == -signal.SIGKILL
