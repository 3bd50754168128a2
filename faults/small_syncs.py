"""A sync that fails in a day of the small office, on a disk that keeps what Linux keeps of it: what was written since the sync before is seen by who
reads the file, and never comes to the disk, whatever a later sync answers. Then the next start, and a crash of the machine."""

import os

import live
from disks import entries_in
from small import INPUTS, LINES, NAME, again

# So many of the lines are in the log of the day that is gone on with.
BEGUN = 5


class File:
    """What is seen of a file, what of it is on the disk, and the ranges that the next sync brings there."""

    def __init__(self, seen=b"", disk=b""):
        self.seen, self.disk, self.pending = seen, disk, []

    def write(self, place, text):
        self.seen = over(self.seen, place, text)
        self.pending.append((place, place + len(text)))

    def cut(self, length):
        self.seen = self.seen[:length]
        self.pending.append((length, length))

    def synced(self):
        """What would be on the disk after a sync."""
        found = self.disk[: len(self.seen)]
        for start, end in self.pending:
            found = over(found, start, self.seen[start:end])
        return found

    def sync(self):
        self.disk, self.pending = self.synced(), []

    def lose(self):
        """A sync fails: the next one has nothing more to bring."""
        self.pending = []


def over(text, place, written):
    return text[:place].ljust(place, b"\0") + written + text[place + len(written) :]


class Folder:
    """The files of a folder, those that a crash leaves of its names, and what is open."""

    def __init__(self, files):
        self.seen = {name: File(text, text) for name, text in files.items()}
        self.base, self.open = dict(self.seen), {}

    def files(self):
        return {name: file.seen for name, file in self.seen.items()}

    def next_start(self):
        """Nothing is open any more."""
        self.open = {}

    def make(self, what, descriptor, place, said):
        """Makes a call of a trace."""
        if what in ("open", "create"):
            self.open_file(what, descriptor, os.path.normpath(os.fsdecode(said)))
        elif what == "rename":
            name, to = (os.path.normpath(os.fsdecode(path)) for path in said.split(b"\n"))
            self.seen[to] = self.seen.pop(name)
        elif what == "remove":
            self.seen.pop(os.path.normpath(os.fsdecode(said)), None)
        elif what == "close":
            self.open.pop(descriptor, None)
        elif descriptor in self.open:
            self.change(self.open[descriptor], what, place, said)

    def open_file(self, what, descriptor, name):
        if what == "create":
            self.seen.setdefault(name, File())
        file = self if name == "." else self.seen.get(name)
        self.open.pop(descriptor, None)
        if file is not None:
            self.open[descriptor] = file

    def change(self, file, what, place, said):
        if file is self:
            if what == "sync":
                self.base = dict(self.seen)
        elif what == "write":
            file.write(place, said)
        elif what == "cut":
            file.cut(place)
        elif what == "sync":
            file.sync()
        elif what == "lost":
            file.lose()

    def crashes(self):
        """The folders that a crash leaves: with nothing that was not synced, and with all of it that a sync could still bring."""
        yield {name: file.disk for name, file in self.base.items()}
        yield {name: file.synced() for name, file in self.seen.items()}


class Syncs:
    """Each sync of a day fails, the next start goes on, and the machine stops at each moment of both: what was shown, or said to be
    performed again, is there at the start after it."""

    def __init__(self, office):
        self.office = office

    def trace(self, files, done, **variables):
        """A day of the lines after so many over these files, and its calls."""
        path = self.office.work / f"trace{next(self.office.numbers)}"
        with self.office.folder(files) as folder:
            ended = self.office.ran(folder, self.office.prompt(), live.typed(LINES[done:]), FAULT_TRACE=path, FAULT_LINES=1, **variables)
        entries = list(entries_in(path.read_bytes())) if path.exists() else []
        path.unlink(missing_ok=True)
        return ended, entries

    def moments(self, folder, entries, shown):
        """The folders that a crash leaves at each moment of a day, and how many commands were shown or said before it."""
        for files in folder.crashes():
            yield files, shown
        answered = shown
        for what, descriptor, place, said in entries:
            if what == "write" and descriptor == 1:
                answered = min(len(LINES), answered + said.count(b"\n"))
            elif what == "write" and descriptor == 2 and b"performed again" in said:
                answered = max(answered, int(said.split(b": ")[1].split()[0]))
            else:
                folder.make(what, descriptor, place, said)
                for files in folder.crashes():
                    yield files, answered

    def failed(self, files, done, number):
        """A day of which a sync fails, and the next start: the crashes of both."""
        ended, entries = self.trace(files, done, FAULT_AT=number, FAULT_HOW="5")
        folder = Folder(files)
        moments = list(self.moments(folder, entries, done))
        shown = moments[-1][1]
        if folder.files() != ended.files:
            raise SystemExit(f"faults/days: a trace doesn't lead to the files that the day has left: {ended}")
        folder.next_start()
        # Where the day was closed all the same nothing is typed.
        count = self.count_in(ended.files)
        _, entries = self.trace(ended.files, len(LINES) if count is None else count)
        return moments + list(self.moments(folder, entries, shown))

    def count_in(self, files):
        """How many commands the next start over these files finds, or None where the day is closed."""
        ended = self.office.day(files)
        count = next((n for n in range(len(LINES), 0, -1) if ended.complained == again(self.office.entries[:n])), 0)
        return None if count == 0 and ended.shown == [f"{NAME}: 0 commands"] and self.is_end(ended.files) else count

    def is_end(self, files):
        return all(files.get(name) == self.office.whole[name] for name in (*INPUTS, "STATION1.TXT", "STATION2.TXT"))

    def found(self, moment):
        """A start after a crash: what was shown is performed again, or all of it was closed."""
        files, shown = moment
        ended = self.office.day(dict(files))
        if ended.status == 0 and self.is_end(ended.files) and (ended.shown == [f"{NAME}: 0 commands"] or self.office.performed(ended, len(LINES))):
            return "the whole day", ended
        count = next((n for n in range(shown, len(LINES) + 1) if self.office.performed(ended, n) and n), None)
        if count is None and not shown and ended.status == 0 and ended.complained == "":
            return "nothing, and nothing was shown", ended
        return (None if count is None else "what was shown"), ended

    def failures(self, title, files, done):
        numbers = [n for n, (what, _) in enumerate(self.office.calls(files, live.typed(LINES[done:]), FAULT_LINES=1), 1) if what == "sync"]
        numbers = numbers[:: self.office.step]
        tried = {}
        for number, moments in zip(numbers, self.office.pool.map(lambda number: self.failed(files, done, number), numbers)):
            for left, shown in moments:
                key = frozenset(left.items())
                if key not in tried or tried[key][1] < shown:
                    tried[key] = (f"the sync of call {number}, {shown} shown", shown)
        tries = [(what, (files, shown)) for files, (what, shown) in tried.items()]
        print(f"    {title}: {len(numbers)} syncs fail", flush=True)
        return self.office.each(f"{title}: crashes of it, and of the start after it", tries, self.found, 1)

    def syncs_part(self):
        yield self.failures("each sync of a day", self.office.old, 0)
        yield self.failures("each sync of a day that goes on", self.office.killed(self.office.old, LINES[:BEGUN]), BEGUN)
