"""A folder of a disk, as the calls of a trace change it, and what a crash of the machine may leave of it, by what docs/DISK.md believes of a
disk. A trace is what fail.c writes down of a run."""

import functools
import itertools
import os

# The office's folder, and beside it the empty one in which a program is started.
OFFICE, DESK = "office", "desk"
FOLDER = "the folder"
# Foreign bytes that look like a list of two of the office's files.
GARBAGE = b"STAFF.DBF\nKEEP.ME\n"
NONE, EMPTY, HALF, FOREIGN_BYTES = "no file", "empty", "half", "foreign bytes"
FORMS = {EMPTY: lambda content: b"", HALF: lambda content: content[: len(content) // 2], FOREIGN_BYTES: lambda content: GARBAGE, NONE: lambda content: None}
# What a crash may leave of the bytes that were written over a file where it is: any bytes, and past the old end no more of them than were
# written. Some of these look like entries of a log. Each outside of the range is as it was.
ENTRY = b"1 3 2 USE OK\n+"
WRITTEN_OVER = {
    "not written over": lambda old, new: old,
    "written over by half": lambda old, new: new[: len(new) // 2] + old[len(new) // 2 :],
    "written over but for the first half": lambda old, new: (old + bytes(len(new)))[: len(new) // 2] + new[len(new) // 2 :],
    "written over by zeros": lambda old, new: bytes(len(new)),
    "written over by entries": lambda old, new: (ENTRY * len(new))[: len(new)],
    "written over by open gates": lambda old, new: b"+" * len(new),
    "written over by foreign bytes": lambda old, new: (GARBAGE * len(new))[: len(new)],
}


class Disk:
    """A folder of a disk: what is seen, and what is on the disk. A file is its number."""

    def __init__(self, files, pending=()):
        """A folder whose files are on the disk, but for those of the pending names."""
        self.contents = dict(enumerate(files.values()))
        self.seen = {name: number for number, name in enumerate(files)}
        self.pending = [("create", name, None, self.seen[name]) for name in pending]
        self.base = {name: number for name, number in self.seen.items() if name not in pending}
        self.synced = set(self.base.values())
        # These are synced, and their folder since.
        self.settled = set(self.synced)
        # Files of these that have been written over since, with what they held, and the ranges.
        self.over = {}
        self.open = {}

    def copy(self):
        other = Disk.__new__(Disk)
        other.contents, other.seen, other.base, other.open = dict(self.contents), dict(self.seen), dict(self.base), {}
        other.pending, other.synced, other.settled, other.over = list(self.pending), set(self.synced), set(self.settled), dict(self.over)
        return other

    def files(self):
        return {name: self.contents[number] for name, number in self.seen.items()}

    def make(self, what, descriptor, place, said):
        """Makes a call of a trace. Whether a crash may leave something else after it than before."""
        if what in ("open", "create"):
            return self.opened(what, descriptor, name_in(said))
        if what == "rename":
            return self.renamed(*map(name_in, said.split(b"\n")))
        if what == "remove":
            return self.removed(name_in(said))
        if what == "close":
            self.open.pop(descriptor, None)
        number = self.open.get(descriptor)
        if what == "sync" and number == FOLDER:
            return self.folder_synced()
        if number in (None, FOLDER) or what not in ("write", "cut", "sync"):
            return False
        if what == "sync":
            self.synced.add(number)
            self.over.pop(number, None)
            return True
        content = self.contents[number]
        is_over = what == "write" and number in self.settled
        if is_over:
            before, ranges = self.over.get(number, (content, ()))
            self.over[number] = before, (*ranges, (place, place + len(said)))
        self.contents[number] = content[:place] + said + content[place + len(said) :] if what == "write" else content[:place]
        if not is_over:
            self.synced.discard(number)
            self.settled.discard(number)
            self.over.pop(number, None)
        return True

    def opened(self, what, descriptor, path):
        if path == ".":
            self.open[descriptor] = FOLDER
        elif path in self.seen:
            self.open[descriptor] = self.seen[path]
        elif what == "create":
            number = len(self.contents)
            self.contents[number], self.seen[path], self.open[descriptor] = b"", number, number
            self.pending.append(("create", path, None, number))
            return True
        return False

    def renamed(self, name, to):
        number = self.seen.pop(name)
        self.seen[to] = number
        self.pending.append(("rename", name, to, number))
        return True

    def removed(self, name):
        self.pending.append(("remove", name, None, self.seen.pop(name)))
        return True

    def folder_synced(self):
        self.base, self.pending = dict(self.seen), []
        self.settled |= self.synced & set(self.seen.values())
        return True

    def loose(self):
        """The files of which a crash may leave other bytes, each with the forms in which it does."""
        there = {*self.base.values(), *(number for *_, number in self.pending)} - self.settled
        created = {number for what, _, _, number in self.pending if what == "create"}
        for number in sorted(there):
            forms = [FOREIGN_BYTES] if number in self.synced else [EMPTY, HALF, FOREIGN_BYTES]
            yield number, forms + [NONE] * (number not in created)
        for number in sorted(self.over):
            yield number, list(WRITTEN_OVER)

    def torn(self, number, form):
        """What a crash leaves of a file in one of its forms."""
        if form in FORMS:
            return FORMS[form](self.contents[number])
        before, ranges = self.over[number]
        content = before
        for start, end in ranges:
            new = self.contents[number][start:end]
            content = content[:start] + WRITTEN_OVER[form](before[start:end], new) + content[end:]
        return content

    def left(self, done, torn):
        """The folder that a crash leaves: which of the pending calls are done, and in which forms files are."""
        names = dict(self.base)
        for (what, name, to, number), is_done in zip(self.pending, done):
            if is_done and what == "create":
                names[name] = number
            elif is_done and what == "rename":
                names[to] = number
            if is_done == 1 and what != "create":
                names.pop(name, None)
        files = {name: self.torn(number, torn[number]) if number in torn else self.contents[number] for name, number in names.items()}
        return {name: content for name, content in files.items() if content is not None}

    def outcomes(self, most):
        """The folders with at most so many deviations from all done, and from none done; and what is told of each."""
        calls = range(len(self.pending))
        torn = [(("bytes", number), form) for number, forms in self.loose() for form in forms]
        for order in (1, 0):
            ways = {i: [way for way in ((0, 1, 2) if self.pending[i][0] == "rename" else (0, 1)) if way != order] for i in calls}
            singles = [(("call", i), way) for i in calls for way in ways[i]] + torn
            for count in range(most + 1):
                for chosen in itertools.combinations(singles, count):
                    if len({what for what, _ in chosen}) == count:
                        yield self.chosen(order, chosen), functools.partial(self.told, order, chosen)

    def chosen(self, order, chosen):
        done = [order] * len(self.pending)
        for (what, which), way in chosen:
            if what == "call":
                done[which] = way
        return self.left(done, {which: form for (what, which), form in chosen if what == "bytes"})

    def told(self, order, chosen):
        """What is told of a folder that a crash left."""
        words = []
        for (what, which), way in chosen:
            if what == "call":
                call, name, to, _ = self.pending[which]
                words.append(f"{call} {name}{' to ' + to if to else ''} {('not done', 'done', 'done, and both names there')[way]}")
            else:
                words.append(f"{self.name_of(which)} is {way}")
        return f"{'all' if order else 'nothing'} unsynced done" + "".join(f"; {word}" for word in words)

    def told_of(self, what, descriptor, said):
        """What is told of a call: its names."""
        if what in ("create", "rename", "remove"):
            return " to ".join(map(name_in, said.split(b"\n")))
        return FOLDER if self.open[descriptor] == FOLDER else self.name_of(self.open[descriptor])

    def name_of(self, number):
        return next((name for name, it in self.seen.items() if it == number), f"file {number}")

    def any_outcome(self, chance):
        """A folder that a crash may leave, and what is told of it."""
        order = chance.choice((0, 1))
        often = chance.choice((0.1, 0.3, 0.5))
        chosen = []
        for i, call in enumerate(self.pending):
            if chance.random() < often:
                chosen.append((("call", i), chance.choice((0, 1, 2) if call[0] == "rename" else (0, 1))))
        for number, forms in self.loose():
            if chance.random() < often:
                chosen.append((("bytes", number), chance.choice(forms)))
        return self.chosen(order, chosen), functools.partial(self.told, order, chosen)


def name_in(path):
    """The name of a path of the office's folder, or the whole path of another. `.` is the office's folder."""
    return os.path.relpath(os.path.join(DESK, os.fsdecode(path)), OFFICE)


def entries_in(content):
    """The calls of a trace."""
    at = 0
    while at < len(content):
        end = content.index(b"\n", at)
        what, descriptor, place, count = content[at:end].decode().split(" ")
        yield what, int(descriptor), int(place), content[end + 1 : end + 1 + int(count)]
        at = end + 2 + int(count)
