"""Starts after a day of the small office was closed."""

import live
from office import files_of
from small import LINES, LOG, NAME, Tried, again, killed_at

CLOSED = f"{NAME}: an earlier day was closed: {len(LINES)} commands\n"


class Closed:
    """A start after the closing says that a day was closed, and of how many commands. If nothing is typed everything stays."""

    def __init__(self, office):
        self.office = office

    def said(self, ended, files):
        """Whether a start without a line has said it, and changed nothing."""
        return (ended.status, ended.complained, ended.printed, ended.files) == (0, CLOSED, f"{NAME}: 0 commands\n", files)

    def starts(self):
        tried = Tried("starts after a day of 8 commands was closed")
        with self.office.folder(self.office.whole) as folder:
            for what in ("the first start", "the second", "the third"):
                ended = self.office.ran(folder, self.office.prompt())
                tried.add("said so, and changed nothing" if self.said(ended, self.office.whole) else None, what, ended)
            ended = self.office.ran(folder, self.office.prompt(), live.typed(LINES))
            holds = ended.status == 0 and ended.complained == CLOSED and ended.printed.endswith(f"{NAME}: {len(LINES)} commands\n")
            tried.add("said so, and performed a day" if holds else None, "the fourth, with 8 lines", ended)
            ended, files = self.office.ran(folder, self.office.prompt()), files_of(folder)
            tried.add("said so, and changed nothing" if self.said(ended, files) else None, "the fifth", ended)
        return tried.tell()

    def kills(self):
        """A day is killed at each call: the next start says that its commands were performed again, or that the day was closed."""
        calls = self.office.calls(self.office.old, live.typed(LINES), FAULT_LINES=1)
        kills = [(f"{how} call {number}", (number, how)) for number in range(1, len(calls) + 1) for how in ("kill", "killed")]
        return self.office.each("kills of a day of 8 lines, and a start after each", kills, self.kill)

    def kill(self, number):
        with self.office.folder(self.office.old) as folder:
            day = self.office.ran(folder, self.office.prompt(), live.typed(LINES), FAULT_AT=number[0], FAULT_HOW=number[1], FAULT_LINES=1)
            answers = len([line for line in day.shown if not line.startswith(NAME)])
            first = self.office.ran(folder, self.office.prompt())
            count = next((n for n in range(len(LINES) + 1) if n >= answers and first.complained == again(self.office.entries[:n])), None)
            if first.status != 0 or not killed_at(day) and day.status != 0:
                return None, first
            if first.complained == CLOSED:
                holds = first.files == self.office.whole
                return ("said to be closed" if holds and self.said(first, self.office.whole) else None), first
            if not count:
                holds = count == 0 and first.files in (self.office.old, self.office.old | {LOG: first.files.get(LOG)})
                return ("nothing was shown, and nothing is" if holds else None), first
            return ("performed again" if self.office.performed(first, count) else None), first

    def again_kills(self):
        """The day after a closed one is killed at each call: until it has a command of its own, the next start says that the one before was closed."""
        calls = self.office.calls(self.office.whole, live.typed(LINES[:1]))
        kills = [(f"{how} call {number}", (number, how)) for number in range(1, len(calls) + 1) for how in ("kill", "killed")]
        return self.office.each("kills of the day after it, of one line", kills, self.kill_again)

    def kill_again(self, number):
        with self.office.folder(self.office.whole) as folder:
            day = self.office.ran(folder, self.office.prompt(), live.typed(LINES[:1]), FAULT_AT=number[0], FAULT_HOW=number[1])
            first = self.office.ran(folder, self.office.prompt())
        if first.status != 0 or not killed_at(day):
            return None, first
        if first.complained == CLOSED:
            return ("the day before was closed" if not day.shown and first.files == self.office.whole else None), first
        if first.complained == CLOSED.replace(f"{len(LINES)} commands", "1 commands"):
            return "its line was closed", first
        return ("its line is performed again" if first.complained.startswith(f"{NAME}: 1 commands performed again\n") else None), first

    def closed_part(self):
        yield self.starts()
        yield self.kills()
        yield self.again_kills()
