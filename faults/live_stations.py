#!/usr/bin/env python3
"""Days of station_prompt with live stations: each has a pipe of its own, at which a process types, and one of its answers, which another reads.

    faults/live_stations.py [--seed N] [--days N] [--lines N] [--seconds N] [--prompt PATH]

Each day has five stations, a table of its own for each and one that they share. What they have to be answered is told by `Station`, which knows
these commands alone: of the shared table it takes the answer of RLOCK() from the day, and `Shared` looks in the log of a killed day whether
these answers can stand in its order. Then, each with --days N seeds:

    whole     some clerks wait for each answer, some don't; some end with QUIT, some leave. Answers, answer files and tables are as they should
    late      nobody is at one station before all others have gone
    silent    a clerk types very much and reads nothing before the others have gone
    gone      a clerk closes the pipe of the answers in the middle of the day, and goes on typing
    killed    the program is killed at any moment, three times, and started again: what was answered stands, in the log and in the files of the end
    full      the log takes no more in the middle of the day: this is told while clerks are there. Once they have left the program ends, and the
              day goes on at the next start

And once each: setups that are refused while nobody is at any station, pipes that are not there, a terminal in place of two pipes, and a station
that types the words of a keyboard that many share, and a line that is too long.
A line is printed for each kind of day, and one for each that ended otherwise. The status is 0 where none did.
"""

import argparse
import contextlib
import fcntl
import multiprocessing
import os
import pathlib
import pty
import random
import resource
import select
import shutil
import signal
import subprocess
import sys
import termios
import time
import tty

sys.dont_write_bytecode = True
import live
import office
from live import LOG, NAME, NO_ENTRIES, TODAY, UNWRITTEN_LOG, again, closed_log, entries_of

SETUP = "LIVE.SET"
STATIONS = range(1, 6)
# How many records each table has, how many bytes a pipe of answers holds of a clerk who does not read, and how many files may have where one is full.
RECORDS, PIPE_BYTES, FULL = 20, 4096, 20_000
BAD, UNLOCKED = b"REFUSED 19 BadCommand", b"REFUSED 5 NotLocked"
# What is said of a station.
UNSHOWN, UNPRINTED = "not all its answers were shown", "its answers can't be shown any more"
UNOPENED = "its path can't be opened"
FORK = multiprocessing.get_context("fork")


def said_of(station, words):
    return f"{NAME}: station {station}: {words}\n"


# ---- tables

def text_of(table, record):
    """What stands in a record at first: ten bytes."""
    return b"%-4s%06d" % (table, record)


def table_of(texts, deleted=()):
    """A table of one field, NAME, of ten characters."""
    records = b"".join((b"*" if number in deleted else b" ") + text for number, text in enumerate(texts, 1))
    header = bytes([3, 87, 3, 15]) + len(texts).to_bytes(4, "little") + (65).to_bytes(2, "little") + (11).to_bytes(2, "little") + bytes(20)
    field = b"NAME".ljust(11, b"\0") + b"C" + bytes(4) + bytes([10, 0]) + bytes(14)
    return header + field + b"\r" + records + b"\x1a"


def has_answer(line):
    """Whether a line is none that is blank or a remark."""
    return bool(line.strip()) and not line.startswith(b"*")


def files():
    """The office before a day: a table for each station, one that they share, and the setup."""
    names = [b"T%d" % station for station in STATIONS] + [b"S"]
    found = {name.decode() + ".DBF": table_of([text_of(name, number) for number in range(1, RECORDS + 1)]) for name in names}
    lines = [b"TABLE %s %s.DBF\n" % (name, name) for name in names] + [b"STATION AT%d\n" % station for station in STATIONS]
    return found | {SETUP: b"".join(lines)}


# ---- what a station types, and what it is answered

class Station:
    """A station's lines, and their answers: of a line that is none of the log's, None. The answer of RLOCK() is taken as it comes."""

    def __init__(self, number, chance, count):
        self.number, self.chance = number, chance
        table = b"T%d" % number
        self.lines = [b"USE %s EXCLUSIVE" % table, b"SELECT 2", b"USE S", b"SELECT 1"]
        while len(self.lines) < count:
            self.lines += self.some(table)

    def some(self, table):
        chance = self.chance
        name = b"%s%06d" % (chance.choice([b"ANNA", b"BORI", b"CLEO"]), chance.randrange(10**6))
        at = b"GO %d" % chance.randrange(1, RECORDS + 1)
        # Of the shared table a few records, so that stations meet.
        shared = [b"SELECT 2", b"GO %d" % chance.randrange(1, 4), b"? RLOCK()", b'REPLACE NAME WITH "%s"' % name, b"UNLOCK", b"SELECT 1"]
        kinds = [[at], [b"? RECNO()"], [b"? NAME"], [b"DELETE"], [b"RECALL"], [b"? DELETED()"], [b'REPLACE NAME WITH "%s"' % name]] * 3
        return chance.choice(kinds + [shared] * 6 + [[b"nonsense"], [b"STATION %d" % chance.randrange(7)], [b""], [b"* " + at]])

    def wrong(self, answers):
        """The first line whose answer is not as it should be, or None; and the texts and marks of the own table then."""
        table = b"T%d" % self.number
        texts, deleted = [text_of(table, number) for number in range(1, RECORDS + 1)], set()
        area, record, has_lock = 1, 1, False
        rest = iter(answers)
        for line in self.lines:
            words = line.split()
            if not has_answer(line):
                continue
            found = next(rest, None)
            if found is None:
                break
            wanted = b"OK"
            if words[0] == b"SELECT":
                area = int(words[1])
            elif words[0] in (b"nonsense", b"STATION"):
                wanted = BAD
            elif words[0] == b"GO" and area == 1:
                record = int(words[1])
            elif line == b"? RLOCK()":
                has_lock, wanted = found == b".T.", found if found in (b".T.", b".F.") else b".T. or .F."
            elif line == b"? RECNO()":
                wanted = b"%d" % record
            elif line == b"? NAME":
                wanted = texts[record - 1]
            elif line == b"? DELETED()":
                wanted = b".T." if record in deleted else b".F."
            elif line == b"DELETE":
                deleted.add(record)
            elif line == b"RECALL":
                deleted.discard(record)
            elif words[0] == b"REPLACE" and area == 1:
                texts[record - 1] = line.split(b'"')[1]
            elif words[0] == b"REPLACE":
                wanted = b"OK" if has_lock else UNLOCKED
            if found != wanted:
                return f"station {self.number}: {line!r}: {found!r}, not {wanted!r}", texts, deleted
        extra = next(rest, None)
        return (f"station {self.number}: {extra!r} after its last answer" if extra is not None else None), texts, deleted

    def answered(self):
        """The lines that have an answer."""
        return [line for line in self.lines if has_answer(line)]

    def after(self, count):
        """What is typed after so many lines with answers."""
        rest = list(self.lines)
        while count:
            count -= has_answer(rest.pop(0))
        return rest


class Shared:
    """The shared table, as the entries of all stations change it, one after another."""

    def __init__(self):
        self.texts = [text_of(b"S", number) for number in range(1, RECORDS + 1)]
        self.area, self.record = dict.fromkeys(STATIONS, 1), dict.fromkeys(STATIONS, 1)
        self.holder = {}

    def wrong(self, entries):
        """The first entry whose answer can't stand there, or None."""
        for count, (station, line, answer) in enumerate(entries, 1):
            if line.startswith(b"SELECT"):
                self.area[station] = int(line.split()[1])
            elif self.area[station] == 2:
                wanted = self.answer(station, line)
                if wanted is not None and answer != wanted:
                    return f"entry {count}: station {station}: {line!r}: {answer!r}, not {wanted!r}"
        return None

    def answer(self, station, line):
        record = self.record[station]
        if line.startswith(b"GO "):
            self.record[station] = int(line.split()[1])
        elif line == b"? RLOCK()":
            if self.holder.get(record, station) != station:
                return b".F."
            self.unlock(station)
            self.holder[record] = station
            return b".T."
        elif line == b"UNLOCK":
            self.unlock(station)
        elif line.startswith(b"REPLACE"):
            if self.holder.get(record) != station:
                return UNLOCKED
            self.texts[record - 1] = line.split(b'"')[1]
        else:
            return None
        return b"OK"

    def unlock(self, station):
        self.holder = {record: at for record, at in self.holder.items() if at != station}


# ---- clerks

def typing(path, lines, pauses, seed, quits):
    """Types lines as fast as they are taken, with pauses now and then."""
    chance = random.Random(seed)
    with contextlib.suppress(BrokenPipeError), open(path, "wb", buffering=0) as pipe:
        for line in lines:
            if chance.random() < pauses:
                time.sleep(chance.random() / 200)
            pipe.write(line + b"\n")
        if quits:
            pipe.write(b"QUIT\nUSE S\n")


def reading(path, kept, count=None):
    """Reads answers as they come, and keeps them in a file: so many, or all to the day's end."""
    with open(path, "rb", buffering=0) as pipe, open(kept, "ab", buffering=0) as file:
        while count != 0 and (read := pipe.read(4096)):
            file.write(read)
            count = count and max(0, count - read.count(b"\n"))


def asking(path, kept, lines, quits, stays):
    """Types each line when the one before is answered, and stays to the day's end or not."""
    with open(path, "wb", buffering=0) as pipe, open(path + ".OUT", "rb") as answers, open(kept, "ab", buffering=0) as file:
        with contextlib.suppress(BrokenPipeError):
            for line in lines:
                pipe.write(line + b"\n")
                if has_answer(line):
                    answer = answers.readline()
                    file.write(answer)
                    if not answer:
                        return
            if quits:
                pipe.write(b"quit\n")
        pipe.close()
        if stays:
            file.write(answers.read())


def leaving(path, kept, lines, few):
    """Types the first lines, each when the one before is answered; then reads no more, and types the others."""
    with open(path, "wb", buffering=0) as pipe:
        with open(path + ".OUT", "rb") as answers, open(kept, "wb", buffering=0) as file:
            for line in lines[:few]:
                pipe.write(line + b"\n")
                if has_answer(line):
                    file.write(answers.readline())
        with contextlib.suppress(BrokenPipeError):
            for line in lines[few:]:
                pipe.write(line + b"\n")


class Day:
    """A day in a folder of its own, its clerks, and what they have read."""

    def __init__(self, work, prompt, seconds):
        self.folder = pathlib.Path(work) / f"day{time.monotonic_ns()}"
        self.prompt, self.seconds, self.clerks, self.program = prompt, seconds, [], None
        office.fill(self.folder, files())
        self.kept = self.folder / "KEPT"
        self.kept.mkdir()
        for station in STATIONS:
            os.mkfifo(self.path(station))
            os.mkfifo(self.path(station) + ".OUT")

    def path(self, station):
        return str(self.folder / f"AT{station}")

    def start(self, before=None):
        command = [self.prompt, "--setup", SETUP, "--out", ".", "--today", TODAY, "--live"]
        streams = {"stdin": subprocess.DEVNULL, "stdout": subprocess.PIPE, "stderr": subprocess.PIPE}
        self.program = subprocess.Popen(command, cwd=self.folder, env={}, preexec_fn=before, **streams)

    def clerk(self, what, *words):
        clerk = FORK.Process(target=what, args=words, daemon=True)
        clerk.start()
        self.clerks.append(clerk)
        return clerk

    def comes(self, station, lines, chance, quits=False, asks=None, stays=True):
        """A clerk comes to a station, who waits for each answer or not, and stays to the day's end or until all lines are answered."""
        kept = str(self.kept / f"{station}")
        if chance.random() < 0.4 if asks is None else asks:
            return [self.clerk(asking, self.path(station), kept, lines, quits, stays)]
        count = None if stays else sum(map(has_answer, lines))
        return [
            self.clerk(typing, self.path(station), lines, chance.choice([0, 0.02, 0.5]), chance.random(), quits),
            self.clerk(reading, self.path(station) + ".OUT", kept, count),
        ]

    def read(self, station):
        """The answers that a station's clerk has read, and a part of one."""
        path = self.kept / f"{station}"
        return path.read_bytes() if path.exists() else b""

    def wait(self, clerks=None):
        """Waits for clerks to go. False where one does not."""
        end = time.monotonic() + self.seconds
        for clerk in self.clerks if clerks is None else clerks:
            clerk.join(max(0.01, end - time.monotonic()))
        return all(clerk.exitcode is not None for clerk in (self.clerks if clerks is None else clerks))

    def end(self):
        """How the program ended: its status, how many commands it said, and what it said of the stations."""
        try:
            printed, told = self.program.communicate(timeout=self.seconds)
        except subprocess.TimeoutExpired:
            self.program.kill()
            self.program.communicate()
            return None, None, "no end"
        first = f"{NAME}: ".encode()
        count = int(printed.removeprefix(first).split()[0]) if printed.startswith(first) and printed.endswith(b" commands\n") else None
        return self.program.returncode, count, told.decode()

    def all_leave(self):
        """All clerks leave at once."""
        for clerk in self.clerks:
            clerk.kill()
            clerk.join()
        self.clerks = []

    def visit(self):
        """Somebody looks in at each station, and leaves."""
        for station in STATIONS:
            for path in (self.path(station), self.path(station) + ".OUT"):
                os.close(os.open(path, os.O_RDWR))

    def kill(self):
        self.program.kill()
        self.program.communicate()
        self.all_leave()

    def close(self):
        """Ends what still runs, and removes the folder."""
        if self.program.poll() is None:
            self.program.kill()
            self.program.communicate()
        self.all_leave()
        shutil.rmtree(self.folder)


class Stations:
    """The days that are tried, in folders of `work`."""

    def __init__(self, work, prompt, seed=1, days=3, lines=400, seconds=120):
        self.work, self.prompt = work, prompt
        self.seed, self.days, self.lines, self.seconds = seed, days, lines, seconds
        self.tried = 0

    def tell(self, title, wrong):
        self.tried += 1
        print(f"    {title}: {'as it should' if wrong is None else f'OTHERWISE: {wrong}'}", flush=True)
        return 0 if wrong is None else 1

    @contextlib.contextmanager
    def day(self):
        day = Day(self.work, self.prompt, self.seconds)
        try:
            yield day
        finally:
            day.close()

    def stations(self, chance, times=1):
        return {number: Station(number, chance, self.lines * times) for number in STATIONS}

    # ---- what a day that was closed has to leave

    def wrong_end(self, day, stations, ended, partly=(), said="", performed=None):
        """What is wrong at the end of a day, or None. Of the stations in `partly` not all was read, and the status is 4; of `performed` not all
        lines were heard."""
        status, count, told = ended
        if status != (4 if partly else 0) or told not in ([said] if isinstance(said, str) else said):
            return f"status {status}, {told!r}, not {said!r}"
        left = office.files_of(day.folder)
        total, wanted = 0, {SETUP: files()[SETUP]}
        for number, station in stations.items():
            text = left.get(f"STATION{number}.TXT")
            if text is None:
                return f"no STATION{number}.TXT"
            answers = text.split(b"\n")[:-1]
            wrong, texts, deleted = station.wrong(answers)
            if wrong:
                return wrong
            if len(answers) != len(station.answered()) and number not in (performed or ()):
                return f"station {number}: {len(answers)} of {len(station.answered())} lines answered"
            read = day.read(number)
            if read != text and not (number in partly and text.startswith(read)):
                return f"station {number} has read {len(read)} bytes {read[-60:]!r}, and its file has {len(text)}"
            total += len(answers)
            wanted[f"STATION{number}.TXT"] = text
            wanted[f"T{number}.DBF"] = table_of(texts, deleted)
        if count != total:
            return f"{count} commands, and {total} answers"
        wanted |= {"S.DBF": left.get("S.DBF"), LOG: closed_log(total)}
        if left != wanted:
            return f"other files: {sorted(name for name in left.keys() | wanted.keys() if left.get(name) != wanted.get(name))}"
        return None

    # ---- days

    def whole(self, chance):
        stations = self.stations(chance)
        with self.day() as day:
            day.start()
            for number in chance.sample(list(STATIONS), 5):
                day.comes(number, stations[number].lines, chance, quits=chance.random() < 0.5, stays=chance.random() < 0.5)
            gone = day.wait()
            return self.wrong_end(day, stations, day.end()) if gone else "the clerks wait"

    def late(self, chance):
        stations = self.stations(chance)
        last = chance.choice(list(STATIONS))
        with self.day() as day:
            day.start()
            for number in STATIONS:
                if number != last:
                    day.comes(number, stations[number].lines, chance, quits=chance.random() < 0.5, stays=False)
            if not day.wait():
                return f"the clerks wait while nobody is at station {last}"
            if day.program.poll() is not None:
                return "the day is over before the last clerk comes"
            day.comes(last, stations[last].lines, chance)
            gone = day.wait()
            return self.wrong_end(day, stations, day.end()) if gone else "the last clerk waits"

    def silent(self, chance):
        stations = self.stations(chance)
        silent = chance.choice(list(STATIONS))
        stations[silent] = Station(silent, chance, self.lines * 30)
        with self.day() as day:
            day.start()
            out = os.open(day.path(silent) + ".OUT", os.O_RDONLY)
            fcntl.fcntl(out, fcntl.F_SETPIPE_SZ, PIPE_BYTES)
            day.clerk(typing, day.path(silent), stations[silent].lines, 0, 0, False)
            others = [clerk for number in STATIONS if number != silent for clerk in day.comes(number, stations[number].lines, chance, stays=False)]
            if not day.wait(others):
                os.close(out)
                return f"the others wait for station {silent}"
            with open(day.kept / f"{silent}", "wb", buffering=0) as file:
                while bytes := os.read(out, 65536):
                    file.write(bytes)
            os.close(out)
            return self.wrong_end(day, stations, day.end())

    def gone(self, chance):
        stations = self.stations(chance)
        left = chance.choice(list(STATIONS))
        with self.day() as day:
            day.start()
            lines = stations[left].lines
            day.clerk(leaving, day.path(left), str(day.kept / f"{left}"), lines, chance.randrange(1, len(lines) - 10))
            for number in STATIONS:
                if number != left:
                    day.comes(number, stations[number].lines, chance, quits=True)
            gone = day.wait()
            ended = day.end()
            # Perhaps all lines were typed before the clerk was missed.
            said = [said_of(left, UNPRINTED) + said_of(left, UNSHOWN), said_of(left, UNSHOWN)]
            return self.wrong_end(day, stations, ended, [left], said, [left]) if gone else "the clerks wait"

    def wrong_log(self, day, stations, shown, wanted=-signal.SIGKILL):
        """What is wrong of the log of a day that was not closed, or None, and its entries."""
        status, log = day.program.returncode, office.files_of(day.folder).get(LOG, NO_ENTRIES)
        entries = entries_of(log)
        if status != wanted or entries is None:
            return f"status {status}, log {log[-60:]!r}", []
        for number, station in stations.items():
            own = [entry.answer for entry in entries if entry.station == number]
            wrong, _, _ = station.wrong(own)
            read = shown[number].split(b"\n")[:-1]
            if wrong or own[: len(read)] != read:
                return wrong or f"station {number} has read {len(read)} answers, which are not the log's first", entries
        return Shared().wrong(entries), entries

    def killed(self, chance):
        stations = self.stations(chance, 4)
        total = sum(len(station.answered()) for station in stations.values())
        with self.day() as day:
            entries = []
            for _ in range(3):
                # Somebody stays at a station, so that the day is not closed before it is killed.
                held = os.open(day.path(1), os.O_RDWR)
                before = self.begun(day, stations, entries, chance)
                rest = total - len(entries)
                self.killed_after(day, chance.randrange(1, rest // 3) if rest > 5 else 0, chance)
                os.close(held)
                shown = {number: text + day.read(number) for number, text in before.items()}
                wrong, entries = self.wrong_log(day, stations, shown)
                if wrong:
                    return wrong
            return self.wrong_rest(day, stations, entries, chance)

    def full(self, chance):
        stations = self.stations(chance, 4)

        def before():
            signal.signal(signal.SIGXFSZ, signal.SIG_IGN)
            resource.setrlimit(resource.RLIMIT_FSIZE, (FULL, FULL))

        with self.day() as day:
            self.begun(day, stations, [], chance, before)
            if not select.select([day.program.stderr], [], [], self.seconds)[0]:
                return "nothing is told"
            told = b""
            while not told.endswith(b"\n") and (more := os.read(day.program.stderr.fileno(), 4096)):
                told += more
            if told.decode() != UNWRITTEN_LOG:
                return f"{told!r}"
            # Clerks wait for answers that do not come: they go. And where nobody has been yet the program waits for somebody.
            day.all_leave()
            day.visit()
            status, count, _ = day.end()
            shown = {number: day.read(number) for number in STATIONS}
            wrong, entries = self.wrong_log(day, stations, shown, 4)
            return wrong or (f"{count} commands" if count is not None else self.wrong_rest(day, stations, entries, chance))

    def wrong_rest(self, day, stations, entries, chance):
        """What is wrong of a day that goes on after these entries, and is closed, or None."""
        before = self.begun(day, stations, entries, chance)
        gone, ended = day.wait(), day.end()
        for number, text in before.items():
            (day.kept / f"{number}").write_bytes(text + day.read(number))
        return self.wrong_end(day, stations, ended, said=again(entries)) if gone else "the clerks wait"

    def begun(self, day, stations, entries, chance, start=None):
        """A day begins after these entries, and clerks type what is left: the answers before it, of each station."""
        day.start(start)
        before = {}
        for number, station in stations.items():
            answers = [entry.answer for entry in entries if entry.station == number]
            before[number] = b"".join(answer + b"\n" for answer in answers)
            (day.kept / f"{number}").unlink(missing_ok=True)
            day.comes(number, station.after(len(answers)), chance, quits=number != 1)
        return before

    def killed_after(self, day, wanted, chance):
        """Kills the program soon after so many answers were read."""
        end = time.monotonic() + self.seconds
        while sum(day.read(number).count(b"\n") for number in STATIONS) < wanted and time.monotonic() < end:
            time.sleep(0.001)
        time.sleep(chance.random() / 1000)
        day.kill()

    # ---- single days

    def refused(self, setup, status, said):
        """Nobody is at any station, and the setup is refused at once."""
        with self.day() as day:
            (day.folder / SETUP).write_bytes(setup)
            day.start()
            ended = day.end()
            return None if ended == (status, None, said) else f"{ended}"

    def missing(self, chance):
        """A station's pipe is not there, and the one of another's answers."""
        stations = self.stations(chance)
        with self.day() as day:
            os.unlink(day.path(2))
            os.unlink(day.path(4) + ".OUT")
            stations[2].lines = []
            day.start()
            day.clerk(reading, day.path(2) + ".OUT", str(day.kept / "2"))
            day.clerk(typing, day.path(4), stations[4].lines, 0, 0, False)
            for number in (1, 3, 5):
                day.comes(number, stations[number].lines, chance)
            # Perhaps all lines were typed before it was missed; and where none was performed there is nothing that was not shown.
            lost = [said_of(4, UNPRINTED), said_of(4, UNPRINTED) + said_of(4, UNSHOWN), said_of(4, UNSHOWN)]
            said = [said_of(2, UNOPENED) + words for words in lost]
            gone = day.wait()
            return self.wrong_end(day, stations, day.end(), [4], said, [4]) if gone else "the clerks wait"

    def terminal(self, chance):
        """A station is at a terminal, which is both paths, and ends by the end of input."""
        stations = self.stations(chance)
        master, slave = pty.openpty()
        tty.setraw(slave)
        mode = termios.tcgetattr(slave)
        mode[3] |= termios.ICANON
        termios.tcsetattr(slave, termios.TCSANOW, mode)
        with self.day() as day:
            for path in (day.path(1), day.path(1) + ".OUT"):
                os.unlink(path)
                os.symlink(os.ttyname(slave), path)
            day.start()
            for number in STATIONS:
                if number != 1:
                    day.comes(number, stations[number].lines, chance)
            read = b""
            for line in stations[1].lines:
                os.write(master, line + b"\n")
                lines = read.count(b"\n") + has_answer(line)
                while read.count(b"\n") < lines and select.select([master], [], [], self.seconds)[0]:
                    read += os.read(master, 4096)
            os.write(master, b"\x04")
            (day.kept / "1").write_bytes(read)
            gone, ended = day.wait(), day.end()
            os.close(master)
            os.close(slave)
            return self.wrong_end(day, stations, ended) if gone else "the clerks wait"

    def words(self, chance):
        """A station types the words of the keyboard, and at last a line without an end."""
        stations = self.stations(chance)
        stations[1].lines = [b"STATION 2", b"station 1", b"STATION 9", b"", b"STATION", b"X" * 100_000, b"nonsense"]
        with self.day() as day:
            day.start()
            for number in STATIONS:
                day.comes(number, stations[number].lines, chance, quits=number != 1, asks=number == 1)
            gone = day.wait()
            ended = day.end()
            text = office.files_of(day.folder).get("STATION1.TXT")
            stations[1].lines = [b"nonsense"] * 6
            if text != (BAD + b"\n") * 6:
                return f"{text!r}"
            return self.wrong_end(day, stations, ended) if gone else "the clerks wait"

    def part(self):
        """Tries all, prints what came of it, and answers how many ended otherwise."""
        print("live stations:", flush=True)
        bad = 0
        for name in ("whole", "late", "silent", "gone", "killed", "full"):
            for day in range(self.days):
                seed = f"{self.seed} {name} {day}"
                bad += self.tell(f"a {name} day, seed {seed}", getattr(self, name)(random.Random(seed)))
        setup = files()[SETUP]
        bad += self.tell("a bad line, nobody there", self.refused(setup + b"STATON 6\n", 1, f"{NAME}: setup line 12 is bad: STATON is none of TABLE, INDEX, STATION\n"))
        bad += self.tell("a table that isn't there, nobody there", self.refused(b"TABLE U U.DBF\n" + setup, 2, f"{NAME}: U.DBF: cannot read: is it there, a file, and may it be read?\n"))
        bad += self.tell("pipes that aren't there", self.missing(random.Random(self.seed)))
        bad += self.tell("a terminal", self.terminal(random.Random(self.seed)))
        bad += self.tell("the words of the keyboard", self.words(random.Random(self.seed)))
        return bad


def main():
    parser = argparse.ArgumentParser(usage="faults/live_stations.py [--seed N] [--days N] [--lines N] [--seconds N] [--prompt PATH]")
    parser.add_argument("--seed", type=int, default=1)
    parser.add_argument("--days", type=int, default=3)
    parser.add_argument("--lines", type=int, default=400)
    parser.add_argument("--seconds", type=int, default=120)
    parser.add_argument("--prompt", default=live.PROGRAM)
    words = parser.parse_args()
    prompt = pathlib.Path(words.prompt).resolve()
    if not os.access(prompt, os.X_OK):
        sys.exit(f"faults/live_stations.py: {prompt} is not there: name the built station_prompt by --prompt")
    with office.in_memory() as folder:
        stations = Stations(folder, prompt, words.seed, words.days, words.lines, words.seconds)
        bad = stations.part()
    print(f"{stations.tried} runs, {bad} ended otherwise")
    return 1 if bad else 0


if __name__ == "__main__":
    sys.exit(main())
