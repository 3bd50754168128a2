"""Days of station_prompt in the demo office's folder: typed through a pipe and at a terminal, with each call on files failing in turn, killed,
and on a log of another's. What they have to come to is told by runs of the server and by `entries_of`, which reads a log."""

import collections
import contextlib
import hashlib
import os
import pathlib
import pty
import random
import re
import resource
import shutil
import signal
import subprocess
import sys
import time

import office
from office import LIST, NO_SETUP, SECONDS, files_of, is_reserved

PROGRAM = office.HERE.parent / "crates/station_prompt/out/station_prompt"
NAME = "station_prompt"
# The log of a day, in the folder of `--out`, and one without entries.
LOG, NO_ENTRIES = "STATIONS.LOG", b"-"
# How many digits the sum of a line has.
SUM_LEN = 16
TODAY = "19870315"
# How many lines are typed in the days of which each call fails; in the day that is killed again and again, and how often that is.
SWEPT, THOUSAND, KILLS = 30, 1000, 50
MEGABYTE = 1_000_000
# Lines that come one by one, each a group of the log: a variable of fail.c. Without it all that is typed at once is there together.
ALONE = {"FAULT_LINES": 1}

# ---- what the program says on standard error: at each start that has read the setup, which files stay as they are beside the new ones, and then these.
KEPT = "".join(f"{path} stays as it is where new files go into its folder: the new {kind} is {name}\n" for path, kind, name in (
    (office.TABLE, "table", "STOCK.DBF"), (office.INDEX, "index", "BYCODE.NDX")))
# And at a terminal before the first line.
GREETING = "You are station 1. HELP shows the commands, QUIT or Ctrl-D closes the day.\n"
UNREAD_LINES = f"{NAME}: cannot read the lines: the next start goes on with the log\n"
UNWRITTEN_LOG = f"{NAME}: cannot write the log: the next start goes on with it\n"
UNPRINTED_ANSWERS = f"{NAME}: cannot print the answers: the next start goes on with the log\n"
UNSTARTED = f"{NAME}: cannot read or write the log\n"
# Of a file of another at the log's name.
NO_LOG = f"{NAME}: {LOG} is no log of this version, or somebody has changed it\n"


def own(line):
    """A line of the server's, as this program says it."""
    return line.replace("station_server", NAME)


# And what the server says of a folder in which a day is open.
DAY_OPEN = "station_server: a day is open in the folder: station_prompt goes on with it\n"
UNPRINTED, UNFINISHED, IN_USE = own(office.UNPRINTED), own(office.UNFINISHED), own(office.IN_USE)

Entry = collections.namedtuple("Entry", "station command answer")
# What the log of an open day begins with: the files that were read, and whether the indexes were made anew, as in a journal; and the day that
# was closed before.
HEAD = re.compile(rb"(?:read [0-9]+ [0-9]+ [0-9a-f]{64} [^\n]*\n)+reindex (?:yes|no)\nearlier [0-9]+ commands\n")


def entry_at(text, start):
    """The entry whose line begins there, and where the line ends, or None."""
    numbers = re.compile(rb"([1-9][0-9]*) (0|[1-9][0-9]*) (0|[1-9][0-9]*) ").match(text, start)
    if not numbers:
        return None
    station, command, answer = map(int, numbers.groups())
    middle = numbers.end() + command
    end = middle + 1 + answer
    if text[middle : middle + 1] != b" " or text[end : end + 1] != b"\n":
        return None
    return Entry(station, text[numbers.end() : middle], text[middle + 1 : end]), end + 1


def closed_log(count):
    """The log of a day that was closed with so many commands."""
    return b"-%d commands\n" % count


def sum_of(line):
    """The sum of an entry's line in a log."""
    return hashlib.sha256(line).hexdigest()[:SUM_LEN].encode()


def gated(log):
    """The entries after open gates with which a log begins, each behind its sum, and what stands after them. None where an open gate has
    something else after it."""
    entries, start = [], 0
    while log[start : start + 1] == b"+":
        line = start + SUM_LEN + 2
        found = entry_at(log, line) if log[line - 1 : line] == b" " else None
        if not found or log[start + 1 : line - 1] != sum_of(log[line : found[1]]):
            return None, b""
        entries.append(found[0])
        start = found[1]
    return entries, log[start:]


def entries_of(log):
    """The entries that a log stands for: those after its head and open gates. Then a shut gate comes and anything, or another byte and a whole
    group, whose gate that byte was to be: it counts. None where it is no log."""
    head = HEAD.match(log)
    entries, rest = gated(log[head.end() :] if head else log)
    if entries is None or rest[:1] == b"-":
        return entries
    group, end = gated(b"+" + rest[1:])
    return entries + group if group and end == NO_ENTRIES else None


def journal_of(text):
    """The entries of a server's journal."""
    count = re.search(rb"^entries (\d+)\n", text, re.MULTILINE)
    entries, start = [], count.end()
    for _ in range(int(count[1])):
        entry, start = entry_at(text, start)
        entries.append(entry)
    return entries


def is_status(line):
    """Whether a line of a script, or of its answers, is none of the journal's."""
    return line.split()[:2] == [b"DISPLAY", b"STATUS"] or line.startswith(b"STATUS ")


def lines_of(script):
    """The lines of a script that are answered."""
    return [line for line in script.split(b"\n") if line.strip() and not line.lstrip().startswith(b"*")]


def typed(lines, station=1):
    """Lines of stations, as they are typed at one keyboard, which a station has at first."""
    text = b""
    for at, line in lines:
        if at != station:
            text += b"STATION %d\n" % at
        text += line + b"\n"
        station = at
    return text


def again(entries):
    """What is said at a start that performs entries again."""
    if not entries:
        return ""
    last = {entry.station: entry for entry in entries}
    text = b"".join(b"station %d: %s: %s\n" % last[station] for station in sorted(last))
    return f"{NAME}: {len(entries)} commands performed again\n" + text.decode()


class Ended:
    """How a day ended: its status, the answers that were shown, how many commands it said it had, what it said on standard error, and the
    files of its folder then."""

    def __init__(self, status, printed, told, files):
        self.status, self.files = status, files
        self.tells_kept = told.decode().startswith(KEPT)
        self.told = told.decode().removeprefix(KEPT)
        count = re.search(rb"(?:^|(?<=\n))station_prompt: (?:(\d+) commands\n)?[^\n]*\Z", printed)
        self.count = int(count[1]) if count and count[1] else None
        self.has_closed = count is not None
        lines = (printed[: count.start()] if count else printed).split(b"\n")
        self.shown = lines if lines[-1] else lines[:-1]

    def recovered(self):
        """Whether it is a start without a setup, which has recovered the folder."""
        return self.status == 2 and not self.shown and not self.has_closed and self.told == own(office.unread(NO_SETUP))

    def __str__(self):
        return f"status {self.status}: {len(self.shown)} answers, {self.count} commands, {self.told!r}, log {self.files.get(LOG)!r:.200}; reserved: {sorted(n for n in self.files if is_reserved(n))}"


class Days:
    """The days that are tried. `trial` has the office, the server and where the folders are made."""

    def __init__(self, trial, prompt, ways, harmless, is_needed):
        self.trial, self.prompt = trial, prompt
        self.ways, self.harmless, self.is_needed = ways, harmless, is_needed
        self.old = trial.old
        self.journal, self.lines, self.served = self.scheduled()

    def told(self, title, holds, ended):
        return self.trial.told(title, holds, ended)

    # ---- a day, and a run of the server

    def command(self, setup):
        return [self.prompt, "--setup", setup, "--out", ".", "--today", TODAY]

    def environment(self, variables):
        return {n: str(v) for n, v in ({"LD_PRELOAD": self.trial.library, **variables} if variables else {}).items()}

    def day(self, folder, text, setup="OFFICE.SET", before=None, **variables):
        """A day in which all this is typed at once, with the variables of fail.c."""
        try:
            ended = subprocess.run(self.command(setup), cwd=folder, env=self.environment(variables), input=text, capture_output=True, timeout=SECONDS, preexec_fn=before)
        except subprocess.TimeoutExpired:
            return Ended(None, b"", b"no end", files_of(folder))
        return Ended(ended.returncode, ended.stdout, ended.stderr, files_of(folder))

    def day_of(self, files, text, **words):
        """A day in a folder of its own."""
        folder = self.trial.folder(files)
        ended = self.day(folder, text, **words)
        shutil.rmtree(folder)
        return ended

    @contextlib.contextmanager
    def opened(self, folder, **words):
        """A day whose lines are typed one after another."""
        words = {"stdin": subprocess.PIPE, "stdout": subprocess.PIPE, "stderr": subprocess.PIPE, **words}
        with subprocess.Popen(self.command("OFFICE.SET"), cwd=folder, env={}, **words) as day:
            try:
                yield day
            finally:
                day.kill()

    def run(self, files, setup="OFFICE.SET"):
        """A run of the server with its journal, in a folder of its own: its entries and the files that it leaves. None where it failed."""
        folder = self.trial.folder(files)
        command = [self.trial.program, "--setup", setup, "--out", ".", "--today", TODAY, "--journal"]
        ended = subprocess.run(command, cwd=folder, env={}, capture_output=True, timeout=SECONDS)
        left = files_of(folder)
        shutil.rmtree(folder)
        if ended.returncode != 0:
            raise SystemExit(f"faults/run: OTHERWISE: the server: {ended}")
        return journal_of(left.pop(office.JOURNAL)), left

    def scheduled(self):
        """A journal of the office, the lines of its scripts in its order, each with its station, and the files of its end."""
        journal, left = self.run(self.old)
        scripts = [self.old[line.split()[1].decode()] for line in self.old["OFFICE.SET"].split(b"\n") if line.startswith(b"STATION ")]
        rest = [iter([line for line in lines_of(script) if not is_status(line)]) for script in scripts]
        return journal, [(entry.station, next(rest[entry.station - 1])) for entry in journal], left

    def closed(self, left, stations, count):
        """The files of the end of a day of so many commands, by those of the server's run: a row of DISPLAY STATUS is no entry, and in no answer file."""
        files = {**left, LOG: closed_log(count)}
        for name in (f"STATION{station}.TXT" for station in range(1, stations + 1)):
            files[name] = b"".join(line for line in left[name].splitlines(keepends=True) if not is_status(line))
        return files

    def of_one_station(self, script):
        """The office with one station."""
        lines = [line for line in self.old["OFFICE.SET"].split(b"\n") if not line.startswith(b"STATION ")]
        return self.old | {"OFFICE.SET": b"\n".join(lines[:-1] + [b"STATION ONE.PRG", b""]), "ONE.PRG": script}

    # ---- days without a fault

    def typed_part(self):
        """The scripts of the office, typed: the server's answers, and its files."""
        bad = 0
        for line in self.old["OFFICE.SET"].split(b"\n"):
            if line.startswith(b"STATION "):
                name = line.split()[1].decode()
                files = self.of_one_station(self.old[name])
                journal, left = self.run(files)
                ended = self.day_of(files, self.old[name])
                holds = ended.status == 0 and ended.shown == left["STATION1.TXT"].split(b"\n")[:-1] and ended.files == self.closed(left, 1, len(journal))
                bad += self.told(f"{name}, typed by its one station", holds, ended)
        ended = self.day_of(self.old, typed(self.lines))
        holds = ended.status == 0 and ended.count == len(self.journal) and ended.tells_kept and ended.told == "" and ended.files == self.closed(self.served, 5, len(self.journal))
        holds = holds and ended.shown == [entry.answer for entry in self.journal]
        return bad + self.told("the scripts of all five stations, typed in the order of the server's journal", holds, ended)

    def at_once(self):
        """Each line is answered before the next one is typed."""
        folder = self.trial.folder(self.old)
        shown, end = [], time.time() + SECONDS
        with self.opened(folder) as day:
            station = 1
            for at, line in self.lines[:SWEPT]:
                day.stdin.write(typed([(at, line)], station))
                day.stdin.flush()
                station = at
                shown.append(day.stdout.readline().removesuffix(b"\n"))
            printed, told = day.communicate(b"QUIT\nUSE LEDGER\n", timeout=max(1, end - time.time()))
        ended = Ended(day.returncode, printed, told, files_of(folder))
        shutil.rmtree(folder)
        holds = shown == self.answers(0) and ended.status == 0 and ended.count == SWEPT and ended.shown == [] and ended.files == self.whole
        return self.told("each line is answered before the next one is typed", holds, ended)

    def terminal(self):
        """A terminal has a prompt before each line, and is closed by the end of input."""
        folder = self.trial.folder(self.old)
        begin = (KEPT + GREETING).replace("\n", "\r\n").encode() + b"1. "
        steps = [(begin, b"use ledger exclusive\n"), (b"use ledger exclusive\r\nOK\r\n1. ", b"STATION 2\n"), (b"STATION 2\r\n2. ", b"USE LEDGER\n")]
        steps += [(b"USE LEDGER\r\nREFUSED 3 TableInUse\r\n2. ", b"STATION 6\n"), (b"STATION 6\r\nNO SUCH STATION\r\n2. ", b"\x04")]
        steps += [(b"station_prompt: 2 commands\r\n", b"")]
        master, slave = pty.openpty()
        seen = wanted = b""
        with self.opened(folder, stdin=slave, stdout=slave, stderr=slave) as day:
            os.close(slave)
            for prompt, answer in steps:
                wanted += prompt
                while len(seen) < len(wanted) and wanted.startswith(seen):
                    try:
                        seen += os.read(master, 4096)
                    except OSError:
                        break
                if seen != wanted:
                    break
                os.write(master, answer)
            status = day.wait(SECONDS) if seen == wanted else None
        os.close(master)
        ended = Ended(status, b"", repr(seen).encode(), files_of(folder))
        shutil.rmtree(folder)
        return self.told("a terminal, with its prompts", status == 0 and ended.files[LOG] == closed_log(2), ended)

    def long_lines(self):
        """A line of a megabyte is answered as one that can't be read. Where the input ends in the middle of a line, it is not performed."""
        ended = self.day_of(self.old, b"USE STAFF\n" + b"X" * MEGABYTE + b"\nGO 2\nDELETE")
        shown = [b"OK", b"REFUSED 19 BadCommand", b"OK", b"NOT PERFORMED: THE LINE WAS CUT"]
        holds = ended.status == 0 and ended.count == 3 and ended.shown == shown
        return self.told("a line of a megabyte, and a last line without a line feed", holds, ended)

    # ---- each call fails in turn

    def answers(self, done):
        """The answers of the swept lines after so many."""
        return [entry.answer for entry in self.journal[done:SWEPT]]

    def text(self, done):
        """The swept lines after so many, as they are typed."""
        return typed(self.lines[done:SWEPT])

    def held(self, ended, what, name, told, needed):
        """How a day ended, and which files are to be there after the next start: None where it is neither."""
        status, said = ended.status, ended.told.removeprefix(self.began)
        if status == -signal.SIGKILL:
            return "killed", "new" if ended.count is not None else "either"
        if status == 0:
            whole = ended.count is not None and said == "" or said == UNPRINTED or told.endswith("from then on")
            return ("all written", "new") if whole and (told in self.harmless or not needed) else None
        if told in self.harmless:
            return None
        if told.endswith("from then on") and said == "":
            return f"status {status}", "either" if status == 4 else "old"
        if status == 2 and said == UNREAD_LINES:
            return ("cannot read the lines", "old") if (what, name) == ("read", "0") else None
        if status == 2 and office.is_unread(said.replace(NAME, "station_server")):
            return "cannot read", "old"
        if status == 4 and said == UNPRINTED_ANSWERS:
            return ("cannot print the answers", "old") if (what, name) == ("write", "1") else None
        if status == 4 and said in (UNWRITTEN_LOG, UNSTARTED):
            return said.removeprefix(f"{NAME}: ").removesuffix("\n"), "old"
        if status == 4 and said == UNFINISHED:
            return "not all in place", "either"
        server = said.replace(NAME, "station_server")
        if status == 4 and (office.is_unwritten(server) or server == office.UNWRITTEN or office.is_unready(server)):
            return "files not written" if "new files" in said or "cannot write" in said else "folder not ready", "old"
        return None

    def went_on(self, folder, ended, wanted, more):
        """Whether the next starts find what was shown, and so many entries more at most, and come to the end of the day."""
        done = ended.begun + len(ended.shown)
        recovered = self.day(folder, b"", setup=NO_SETUP)
        files = dict(recovered.files)
        if not recovered.recovered() or ended.shown != self.answers(ended.begun)[: len(ended.shown)]:
            return False, recovered
        if files == self.whole:
            return wanted in ("new", "either") and done == SWEPT, recovered
        entries = entries_of(files.pop(LOG, NO_ENTRIES))
        if wanted == "new" or files != self.old or entries is None or entries != self.journal[: len(entries)] or not done <= len(entries) <= done + more:
            return False, recovered
        rest = self.day(folder, self.text(len(entries)))
        holds = rest.status == 0 and rest.told == again(entries) and rest.shown == self.answers(len(entries)) and rest.files == self.whole
        return holds, rest

    def tried(self, files, done, lines, number, what, name, needed, how, told):
        """A day of the swept lines after so many, in which a call fails, and the days after it."""
        on = {"FAULT_ON": 1} if how.startswith("on ") else {}
        folder = self.trial.folder(files)
        ended = self.day(folder, self.text(done), FAULT_AT=number, FAULT_HOW=how.removeprefix("on "), **lines, **on)
        ended.begun = done
        held = self.held(ended, what, name, told, needed)
        holds, last = self.went_on(folder, ended, held[1], 1 if lines else SWEPT) if held else (False, ended)
        shutil.rmtree(folder)
        return held[0] if holds else None, ended, last

    def calls_of(self, files, done, lines, setup="OFFICE.SET"):
        """The calls of such a day without a fault, in order."""
        folder, log = self.trial.folder(files), self.trial.work / f"log{next(self.trial.numbers)}"
        self.day(folder, self.text(done), setup=setup, FAULT_LOG=log, **lines)
        calls = [line.partition(" ")[::2] for line in log.read_text().splitlines()]
        log.unlink()
        shutil.rmtree(folder)
        return calls

    def sweep(self, title, files, done, lines, ways):
        """Tries each call of such a day in each way, prints what came of it, and answers how many ended otherwise."""
        calls = self.calls_of(files, done, lines)
        self.began = again(self.journal[:done])
        tries = [
            (number, what, name, self.is_needed(what, name) or (what, name) == ("read", "0"), how, told)
            for number, (what, name) in list(enumerate(calls, 1))[:: self.trial.step]
            for how, told in ways(what)
        ]
        print(f"{title}: {len(calls)} calls, {len(tries)} days", flush=True)
        counts, ends, bad = collections.Counter(), collections.defaultdict(collections.Counter), 0
        work = self.trial.pool.map(lambda it: self.tried(files, done, lines, *it), tries)
        for (number, what, name, _, _, told), (came, ended, last) in zip(tries, work):
            counts[told, what] += 1
            ends[told, what][came or "OTHERWISE"] += 1
            if came is None:
                bad += 1
                print(f"    OTHERWISE: call {number} ({what} {name}) {told}: {ended}; then {last}")
        for (told, what), count in sorted(counts.items()):
            print(f"    {what:7}{told:21}{count:5}  {'; '.join(f'{n} {end}' for end, n in sorted(ends[told, what].items()))}")
        return bad

    def left_at(self, number):
        """The files that such a day leaves that is killed before a call."""
        return self.day_of(self.old, self.text(0), FAULT_AT=number, FAULT_HOW="kill", **ALONE).files

    def calls_part(self):
        """Each call of a day, whose lines come one by one and all together; kills of the day after one that was killed, while a gate is shut and before the list has its name; and kills of a start
        over new files that had begun to take their places."""
        kills = [("kill", "killed before"), ("killed", "killed after")]
        calls = self.calls_of(self.old, 0, ALONE)
        bad = self.sweep("days", self.old, 0, ALONE, lambda what: self.ways[what] + kills)
        bad += self.sweep("days whose lines come together", self.old, 0, {}, lambda what: self.ways[what] + kills)
        numbers = lambda kind, which: [n for n, (what, name) in enumerate(calls, 1) if what == kind and which(name)]
        shown = numbers("write", lambda name: name == "1")
        opening = max(n for n in numbers("sync", lambda name: True) if n < shown[len(shown) // 2]) - 1
        listed = numbers("rename", lambda name: os.path.basename(name) == LIST)[-1]
        for title, number in (("before a gate is opened", opening), ("before the list has its name", listed)):
            files = self.left_at(number)
            entries = entries_of(files[LOG])
            bad += self.sweep(f"the day after a kill {title}, which performs {len(entries)} entries again", files, len(entries), ALONE, lambda what: kills)
        placing = numbers("rename", lambda name: os.path.basename(name) not in (LIST, LOG))[0]
        return bad + self.recoveries_killed(self.left_at(placing))

    def recoveries_killed(self, files):
        """Each kill of a start over new files that had begun to take their places, and a start after it: they are in place, with an empty log."""
        calls, wrong = self.calls_of(files, 0, {}, NO_SETUP), None
        tries = [(number, how) for number in range(1, len(calls) + 1)[:: self.trial.step] for how in ("kill", "killed")]
        for number, last in zip(tries, self.trial.pool.map(lambda it: self.recovery_killed(files, *it), tries)):
            wrong = wrong if last.recovered() and last.files == self.whole else wrong or f"{number}: {last}"
        return self.told(f"{len(tries)} starts over new files that take their places, killed at each call", wrong is None, wrong)

    def recovery_killed(self, files, number, how):
        folder = self.trial.folder(files)
        self.day(folder, b"", setup=NO_SETUP, FAULT_AT=number, FAULT_HOW=how)
        last = self.day(folder, b"", setup=NO_SETUP)
        shutil.rmtree(folder)
        return last

    # ---- kills at random

    def thousand_lines(self, chance):
        """Lines of one station that read and change two tables."""
        lines = [b"USE LEDGER EXCLUSIVE", b"SELECT 2", b"USE STAFF EXCLUSIVE", b"SELECT 1"]
        kinds = [
            lambda: b"GO %d" % chance.randrange(0, 140),
            lambda: b"REPLACE AMOUNT WITH %d.%02d" % (chance.randrange(-999, 1000), chance.randrange(100)),
            lambda: b'REPLACE ENTRY WITH "VOUCHER %d"' % chance.randrange(2000),
            lambda: b'REPLACE ACCOUNT WITH "%s"' % chance.choice([b"POST", b"CASH", b"GIFTS", b"TOO LONG A NAME"]),
            lambda: chance.choice([b"APPEND BLANK", b"SKIP", b"SKIP -1", b"GO TOP", b"GO BOTTOM", b"DELETE", b"RECALL", b"? RECNO()", b"? ENTRY", b"? AMOUNT", b"? EOF()"]),
            lambda: b'SEEK "%s"' % chance.choice([b"POST", b"CASH", b"GIFTS", b"NONE"]),
            lambda: b"SELECT %d" % chance.randrange(1, 3),
        ]
        return lines + [chance.choice(kinds)() for _ in range(THOUSAND - len(lines))]

    def killed(self, folder, lines, chance):
        """A day in which some lines are typed, the first ones one by one and the others together, and which is killed at any moment."""
        printed, alone = b"", chance.randrange(len(lines) + 1)
        with self.opened(folder) as day:
            for line in lines[:alone]:
                day.stdin.write(line + b"\n")
                day.stdin.flush()
                printed += day.stdout.readline()
            with contextlib.suppress(BrokenPipeError):
                day.stdin.write(b"".join(line + b"\n" for line in lines[alone:]))
                day.stdin.flush()
            time.sleep(chance.random() / 1000)
            day.kill()
            day.wait()
            return Ended(day.returncode, printed + day.stdout.read(), day.stderr.read(), files_of(folder))

    def thousand(self):
        """A day of a thousand lines that is killed again and again: what was shown is in the files of its end, at its place."""
        chance = random.Random(1)
        lines = self.thousand_lines(chance)
        files = self.of_one_station(b"".join(line + b"\n" for line in lines))
        journal, left = self.run(files)
        folder = self.trial.folder(files)
        shown, most, found = 0, 0, 0
        for _ in range(KILLS):
            ended = self.killed(folder, lines[most : most + 20], chance)
            answers = [entry.answer for entry in journal[most:]][: len(ended.shown)]
            shown = most + len(ended.shown)
            log = entries_of(ended.files.get(LOG, NO_ENTRIES))
            found += len(ended.shown)
            if ended.status != -signal.SIGKILL or ended.shown != answers or log != journal[: len(log)] or not shown <= len(log) <= most + 20:
                shutil.rmtree(folder)
                return self.told(f"{THOUSAND} lines, killed {KILLS} times", False, ended)
            most = len(log)
        ended = self.day(folder, b"".join(line + b"\n" for line in lines[most:]))
        shutil.rmtree(folder)
        holds = ended.status == 0 and ended.told == again(journal[:most]) and ended.count == THOUSAND and ended.files == self.closed(left, 1, THOUSAND)
        holds = holds and ended.shown == [entry.answer for entry in journal[most:]]
        return self.told(f"{THOUSAND} lines, killed {KILLS} times: {most} entries then, of which {found} were shown", holds, ended)

    # ---- a log of another's

    def no_log(self):
        """A file of somebody's has the log's name: it is refused, and stays."""
        wrong = None
        for foreign in (b"Dear Anna,\n", b"x", b"\0" * 4096, self.old["STAFF.DBF"]):
            files = self.old | {LOG: foreign}
            ended = self.day_of(files, b"USE STAFF\n")
            if (ended.status, ended.files) != (5, files) or ended.told != NO_LOG:
                wrong = wrong or ended
        return self.told("a file of another at the log's name, which a day refuses", wrong is None, wrong)

    def killed_after(self, text):
        """The files that a day leaves that is killed when all these lines are answered."""
        folder = self.trial.folder(self.old)
        with self.opened(folder) as day:
            day.stdin.write(text)
            day.stdin.flush()
            for _ in range(text.count(b"\n")):
                day.stdout.readline()
            day.kill()
            day.wait()
        files = files_of(folder)
        shutil.rmtree(folder)
        return files

    # ---- ends that no single call makes

    def reader_gone(self):
        """Nobody reads the answers any more: the entries of the last lines, which come together, are in the log, and the day does not go on."""
        folder = self.trial.folder(self.old)
        with self.opened(folder) as day:
            day.stdin.write(b"USE STAFF\n")
            day.stdin.flush()
            first = day.stdout.readline()
            day.stdout.close()
            day.stdin.write(b"GO 2\nGO 3\n")
            day.stdin.flush()
            day.stdin.close()
            told = day.stderr.read()
            status = day.wait(SECONDS)
        ended = Ended(status, first, told, files_of(folder))
        shutil.rmtree(folder)
        log = entries_of(ended.files.get(LOG, NO_ENTRIES))
        holds = (status, ended.told) == (4, UNPRINTED_ANSWERS) and len(log) == 3 and ended.files.keys() - {LOG} == self.old.keys()
        return self.told("nobody reads the answers any more", holds, ended)

    def second_day(self):
        """A day is open in the folder: a second one and a run of the server end at once."""
        folder = self.trial.folder(self.old)
        with self.opened(folder) as day:
            day.stdin.write(b"USE STAFF\n")
            day.stdin.flush()
            day.stdout.readline()
            second = self.day(folder, b"USE STAFF\n")
            run = self.trial.served(folder)
            printed, told = day.communicate(b"QUIT\n", timeout=SECONDS)
        shutil.rmtree(folder)
        holds = (second.status, second.told, second.shown) == (4, IN_USE, []) and (run.status, run.complained) == (4, office.IN_USE)
        return self.told("a second day and a run in the folder of an open day", holds and day.returncode == 0, second)

    def open_day(self):
        """A run of the server in a folder in which a killed day is open: it ends at once, and each file is as it was."""
        folder = self.trial.folder(self.killed_after(b"USE STAFF\n"))
        before = files_of(folder)
        run = self.trial.served(folder)
        shutil.rmtree(folder)
        holds = (run.status, run.complained, run.files) == (4, DAY_OPEN, before)
        return self.told("a run in a folder in which a day is open", holds, run)

    def limited(self):
        """A limit on the size of files, which a table of the end is above: the new files are not written, and the next start goes on."""

        def before():
            signal.signal(signal.SIGXFSZ, signal.SIG_IGN)
            resource.setrlimit(resource.RLIMIT_FSIZE, (8192, 8192))

        folder = self.trial.folder(self.old)
        ended = self.day(folder, self.text(0), before=before)
        ended.begun = 0
        holds, last = self.went_on(folder, ended, "old", 0)
        shutil.rmtree(folder)
        said = ended.status == 4 and ended.told == own(office.unwritten("LEDGER.DBF"))
        return self.told("a limit on the size of files", said and holds, f"{ended}; then {last}")

    def part(self):
        print("live days:", flush=True)
        ended = self.day_of(self.old, self.text(0))
        self.whole, self.began = ended.files, ""
        bad = self.typed_part()
        bad += self.told(f"{SWEPT} lines", ended.status == 0 and ended.count == SWEPT and ended.shown == self.answers(0), ended)
        bad += self.at_once() + self.terminal() + self.long_lines() + self.thousand() + self.no_log()
        return bad + self.reader_gone() + self.second_day() + self.open_day() + self.limited() + self.calls_part()


def program_of(words, server):
    """The built program: the one that the command line names, or the one beside the server, or that of this repository. None where there is none."""
    if words.prompt:
        named = pathlib.Path(words.prompt).resolve()
        if not os.access(named, os.X_OK):
            sys.exit(f"faults/run: {named} is not there")
        return named
    found = next((path for path in (server.with_name(NAME), PROGRAM) if os.access(path, os.X_OK)), None)
    if found is None and words.part == "live":
        sys.exit("faults/run: station_prompt is not built: name it by --prompt")
    return found
