"""A live day of two stations in the office's folder, and the folders that a crash of the machine may leave of it: its log is written over where it
is. Over each folder the program is started twice: without a setup, which recovers it, and to go on with the day."""

import itertools
import os
import shutil
import subprocess

import live
import office
from disks import DESK, OFFICE, Disk, entries_in
from office import NO_SETUP, SECONDS, files_of

# What is typed, one line of a station after another.
LINES = [
    (1, b"USE STAFF EXCLUSIVE"), (1, b"GO 2"), (1, b'REPLACE NAME WITH "CLARKE, ANNA"'), (2, b"USE STOCK EXCLUSIVE"), (2, b'SEEK "HI0105"'), (1, b"USE STOCK"),
    (2, b"REPLACE COUNT WITH 12"), (1, b"? NAME"),
]


class DayTrace:
    """A day over a folder of a disk, call by call, and before each how many entries a crash has to leave at least, and at most."""

    def __init__(self, disk, entries, shown, begun, more):
        """So many answers were shown before it, and so many entries are performed again at its start, which says so. A group has so many at most."""
        self.disks, self.told, self.counts = [disk], ["the begin"], [(shown, begun + more)]
        disk, ends = disk.copy(), 0
        for what, descriptor, place, said in entries:
            if what == "write" and descriptor in (1, 2):
                ends += said.count(b"\n") * (descriptor == 1)
                # The count of the commands is shown after the answers.
                answered = min(begun + ends, len(LINES))
                if descriptor == 1 or b"performed again" in said:
                    self.counts[-1] = answered, answered + more
            elif disk.make(what, descriptor, place, said):
                self.disks.append(disk.copy())
                self.told.append(f"{what} {disk.told_of(what, descriptor, said)}")
                self.counts.append(self.counts[-1])
        self.is_closed = begun + ends > len(LINES)
        self.end = disk.files()


class LiveDays:
    """The days over folders that a crash has left. `starts` makes the folders, `old` are the files before the day."""

    def __init__(self, starts, prompt, library, old, out):
        self.starts, self.prompt, self.library, self.old, self.out = starts, prompt, library, old, out
        self.numbers = itertools.count()
        self.traces = {}
        ended = self.day_of(old, 0)
        self.whole, self.answers = ended.files, ended.shown
        if ended.status != 0 or ended.count != len(LINES) or len(self.answers) != len(LINES):
            raise SystemExit(f"faults/states: OTHERWISE: a day without a crash: {ended}")
        self.journal = self.logged()

    def day(self, folder, text, setup="OFFICE.SET", **variables):
        """A day that is begun beside the office's folder, in which all this is typed at once, with the variables of fail.c."""
        path = setup if setup == NO_SETUP else f"{self.out}/{setup}"
        command = [self.prompt, "--setup", path, "--out", self.out, "--today", live.TODAY]
        names = {"LD_PRELOAD": self.library, **variables} if variables else {}
        try:
            ended = subprocess.run(command, cwd=folder / DESK, env={n: str(v) for n, v in names.items()}, input=text, capture_output=True, timeout=SECONDS)
        except subprocess.TimeoutExpired:
            return live.Ended(None, b"", b"no end", files_of(folder / OFFICE))
        told = ended.stderr.decode().removeprefix(self.kept()).encode()
        return live.Ended(ended.returncode, ended.stdout, told, files_of(folder / OFFICE))

    def kept(self):
        """What is said of files that stay as they are beside the new ones."""
        return live.KEPT.replace(office.TABLE, f"{self.out}/{office.TABLE}").replace(office.INDEX, f"{self.out}/{office.INDEX}")

    def text(self, done):
        """The lines after so many, as they are typed."""
        return live.typed(LINES[done:])

    def day_of(self, files, done, **variables):
        folder = self.starts.folder(files)
        ended = self.day(folder, self.text(done), **variables)
        shutil.rmtree(folder)
        return ended

    def logged(self):
        """The entries of the day: those in its log when it is killed as its first new file is begun."""
        log = self.starts.work / f"{os.getpid()}-calls"
        self.day_of(self.old, 0, FAULT_LOG=log)
        calls = log.read_text().splitlines()
        log.unlink()
        last = max(n for n, call in enumerate(calls) if call == "write 1" and "create" in {c.partition(" ")[0] for c in calls[n:]})
        number = next(n for n, call in enumerate(calls, 1) if n > last + 1 and call.startswith("create "))
        entries = live.entries_of(self.day_of(self.old, 0, FAULT_AT=number, FAULT_HOW="kill").files[live.LOG])
        if entries is None or [entry.answer for entry in entries] != self.answers:
            raise SystemExit("faults/states: OTHERWISE: the log of a day has not its answers")
        return entries

    def trace(self, disk, done, shown, lines):
        """The calls of a day of the lines after so many, over a disk, where so many were shown before."""
        files = disk.files()
        key = frozenset(files.items()), done, bool(lines)
        if key not in self.traces:
            folder, file = self.starts.folder(files), self.starts.work / f"{os.getpid()}-day{next(self.numbers)}"
            ended = self.day(folder, self.text(done), FAULT_TRACE=file, **lines)
            self.traces[key] = list(entries_in(file.read_bytes())), ended
            shutil.rmtree(folder)
            file.unlink()
        entries, ended = self.traces[key]
        made = DayTrace(disk, entries, shown, done, 1 if lines else len(LINES))
        if made.end != ended.files:
            raise SystemExit("faults/states: a trace of a day doesn't lead to the files that it has left: the library lacks a call")
        return made

    def found(self, files, least, most, is_closed):
        """How many lines are in the log of a folder that was recovered, or that all of them are in its files; None where it is otherwise."""
        if files == self.whole:
            return len(LINES)
        log = files.pop(live.LOG, live.NO_ENTRIES)
        entries = live.entries_of(log)
        if is_closed or files != self.old or entries is None or entries != self.journal[: len(entries)] or not least <= len(entries) <= most:
            return None
        return len(entries)

    def tried(self, files, least, most, is_closed):
        """A start over a folder that a crash left, and the rest of the day: None where all is right."""
        folder = self.starts.folder(files)
        first = self.day(folder, b"", setup=NO_SETUP)
        count = self.found(dict(first.files), least, most, is_closed) if first.recovered() else None
        came = f"{first}" if count is None else None
        if count is not None and first.files != self.whole:
            rest = self.day(folder, self.text(count))
            right = rest.status == 0 and rest.told == live.again(self.journal[:count]) and rest.shown == self.answers[count:] and rest.files == self.whole
            came = None if right else f"the rest of the day, after {count} lines: {rest}"
        shutil.rmtree(folder)
        return came

    # ---- the folders

    def outcomes(self, title, trace, most):
        """The folders that a crash leaves at each moment of a day."""
        for place, (disk, told, counts) in enumerate(zip(trace.disks, trace.told, trace.counts)):
            is_closed = trace.is_closed and place == len(trace.disks) - 1
            for files, words in disk.outcomes(most):
                yield (frozenset(files.items()), *counts, is_closed), (files, *counts, is_closed), f"{title}, a crash after {told}", words

    def days(self):
        """The day, whose lines come one by one and all together, and after a kill of it at each moment a start that goes on with it."""
        yield from self.days_of("the day", live.ALONE)
        yield from self.days_of("the day whose lines come together", {})

    def days_of(self, title, lines):
        """Such a day, and after a kill of it at each moment a start that goes on with it: what the day had not synced is still pending."""
        trace = self.trace(Disk(self.old), 0, 0, lines)
        yield from self.outcomes(title, trace, 2)
        for disk, told, counts in zip(trace.disks, trace.told, trace.counts):
            count = self.found(self.recovered(disk), *counts, False)
            if count is None:
                raise SystemExit(f"faults/states: OTHERWISE: a start after a kill of a day after {told}")
            if count < len(LINES):
                yield from self.outcomes(f"a day after a kill of {title} after {told}", self.trace(disk.copy(), count, counts[0], lines), 1)

    def recovered(self, disk):
        """The files after a start without a setup."""
        folder = self.starts.folder(disk.files())
        first = self.day(folder, b"", setup=NO_SETUP)
        shutil.rmtree(folder)
        return dict(first.files)
