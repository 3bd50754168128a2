"""Logs of the small office's day that are changed or cut: each bit, each byte."""

import re

import live
from small import LINES, LOG

REFUSED = "refused with status 5"


def flipped(text, at, bit):
    return text[:at] + bytes([text[at] ^ 1 << bit]) + text[at + 1 :]


def unshown(log, count):
    """The log as it is before its last group, of so many entries, counts: its gate is still shut. And where that gate is."""
    lines = log.split(b"\n")
    lines[-1 - count] = b"-" + lines[-1 - count][1:]
    return b"\n".join(lines), len(b"\n".join(lines[: -1 - count])) + 1


def older(log):
    """The log as versions of the program wrote it before its lines had sums, and before it began with the files of its day; and one without the
    line of the day before."""
    body = log[live.HEAD.match(log).end() :]
    without_sums = re.sub(rb"(?m)^([+-])[0-9a-f]{16} ", rb"\1", body)
    without_day = re.sub(rb"(?m)^earlier [0-9]+ commands\n", b"", log)
    return [("without sums", without_sums), ("without the files of its day", body), ("without the day before", without_day)]


class Logs:
    """Starts over changed logs. A start performs all commands that were shown, and no other; or it is refused, and everything stays."""

    def __init__(self, office):
        self.office = office

    def judged(self, log, *counts):
        files = self.office.open | {LOG: log}
        ended = self.office.day(files)
        for count in counts:
            if self.office.performed(ended, count):
                return f"performed all {count}" if count == len(LINES) else f"performed the {count} that were shown", ended
        return (REFUSED if self.office.refused(ended, files) else None), ended

    def bits_part(self):
        log = self.office.log
        bits = [(f"byte {at}, bit {bit}", flipped(log, at, bit)) for at in range(len(log)) for bit in range(8)]
        yield self.office.each("a log of 8 commands of which a bit is flipped", bits, lambda log: self.judged(log, len(LINES)))
        last, gate = unshown(log, 2)
        bits = [(f"byte {at}, bit {bit}", flipped(last, at, bit)) for at in range(gate, len(last)) for bit in range(8)]
        yield self.office.each("its last 2, which were never shown, with a bit flipped", bits, lambda log: self.judged(log, len(LINES), len(LINES) - 2))

    def cuts_part(self):
        log = self.office.log
        cuts = [(f"{at} bytes", log[:at]) for at in range(len(log))]
        yield self.office.each("a log of 8 commands that is cut", cuts, self.judged)
        last, gate = unshown(log, 2)
        cuts = [(f"{at} bytes", last[:at]) for at in range(gate + 1, len(last))]
        yield self.office.each("a log that is cut in its last 2, which were never shown", cuts, lambda log: self.judged(log, len(LINES) - 2))
        yield self.office.each("logs of older versions", older(log), self.judged, 1)
