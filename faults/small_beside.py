"""Other programs beside an open day of the small office."""

import shutil

import live
from office import JOURNAL, files_of
from small import INPUTS, LINES, LOG, SETUP, SETUP_LINES, TODAY, Tried, killed_at, setup_of

# What is said where a day is open: the program writes nothing, or goes on.
OPEN = "a day is open in "
FIELDS, ROWS = b"NAME Character 20\nDUES Number 7 2\n", b"CODE,COUNT\nZZ0001,3\n"
TABLE = "STOCK.DBF"


def at(folder, line):
    """A line of a setup, whose files lie in this folder."""
    words = line.split()
    named = 1 if words[0] == b"STATION" else 3 if words[0] == b"INDEX" else 2
    return b" ".join(words[:named] + [folder.encode() + b"/" + name for name in words[named:]])


class Beside:
    """Where a day is open, what writes into its folder, or what it reads, ends with status 4, and each file stays. What reads alone says it."""

    def __init__(self, office):
        self.office = office
        self.journal, self.far_journal = self.journal_of_a_run(SETUP), self.journal_of_a_run("../NEW/NEW.SET")

    def journal_of_a_run(self, setup):
        """The journal of a run with this setup, whose tables lie in the office's folder or in the other one."""
        with self.office.folder(self.office.old, "NEW", "RUN") as folder:
            for name, text in self.tables().items():
                (folder.parent / "NEW" / name).write_bytes(text)
            self.office.ran(folder, self.server(setup, "../RUN", "--journal"))
            return files_of(folder.parent / "RUN")[JOURNAL]

    def server(self, setup, out, *words):
        return self.office.words("station_server", "--setup", setup, "--out", out, "--today", TODAY, *words)

    def tool(self, *words):
        return self.office.words("table_tool", *words)

    def audit(self, setup, journal, out):
        return self.office.words("station_audit", "--setup", setup, "--journal", journal, "--out", out, "--today", TODAY)

    def tables(self):
        """The tables of the office as they lie in the other folder, with a setup that names them there."""
        names = (*INPUTS, "STOCK.PRG", "STAFF.PRG")
        return {name: self.office.old[name] for name in names} | {"NEW.SET": setup_of([at("../NEW", line) for line in SETUP_LINES])}

    def more(self):
        """What lies in the other folder, so that what reads or writes there can."""
        away, above = (setup_of([at(folder, line) for line in SETUP_LINES]) for folder in ("../OFFICE", "OFFICE"))
        journals = {JOURNAL: self.journal, "FAR.TXT": self.far_journal}
        return self.tables() | journals | {"AWAY.SET": away, "ABOVE.SET": above, "FIELDS.TXT": FIELDS, "ROWS.CSV": ROWS}

    def from_it(self):
        """Programs that read tables of the office's folder, in which they are started, and write elsewhere."""
        dated = ("--today", TODAY)
        return [
            ("the server, into another folder", self.server(SETUP, "../NEW")),
            ("the server, its setup elsewhere", self.server("../NEW/AWAY.SET", "../NEW")),
            ("the server, started above", ["/usr/bin/env", "-C", "..", *self.server("NEW/ABOVE.SET", "NEW")]),
            ("the audit, into another folder", self.audit(SETUP, "../NEW/JOURNAL.TXT", "../NEW")),
            ("load from it", self.tool("load", "../NEW/ROWS.CSV", "--into", TABLE, "--out", "../NEW/MORE.DBF", *dated)),
            ("the prompt, into another folder", self.office.prompt(SETUP, "../NEW")),
            ("the prompt, its setup elsewhere", self.office.prompt("../NEW/AWAY.SET", "../NEW")),
        ]

    def into(self, out):
        """Programs that write into a folder."""
        dated, folder = ("--today", TODAY), "" if out == "." else f"{out}/"
        return [
            ("the server", self.server("../NEW/NEW.SET", out)),
            ("the audit", self.audit("../NEW/NEW.SET", "../NEW/FAR.TXT", out)),
            ("make", self.tool("make", "../NEW/FIELDS.TXT", "--out", f"{folder}CLUB.DBF", *dated)),
            ("make --replace", self.tool("make", "../NEW/FIELDS.TXT", "--out", f"{folder}{TABLE}", "--replace", *dated)),
            ("load", self.tool("load", "../NEW/ROWS.CSV", "--into", f"../NEW/{TABLE}", "--out", f"{folder}MORE.DBF", *dated)),
            ("load --replace", self.tool("load", "../NEW/ROWS.CSV", "--into", f"../NEW/{TABLE}", "--out", f"{folder}{TABLE}", "--replace", *dated)),
        ]

    def readers(self):
        return [
            ("show", self.tool("show", TABLE)), ("csv", self.tool("csv", TABLE)),
            ("diff, the old one", self.tool("diff", TABLE, f"../NEW/{TABLE}")), ("diff, the new one", self.tool("diff", f"../NEW/{TABLE}", TABLE)),
        ]

    # ---- what is tried

    def tops(self, folder):
        """The files of the office's folder and of those beside it."""
        return {path.name: files_of(path) for path in folder.parent.iterdir()}

    def begin(self, folder, out):
        """A day in the folder, with this folder of `--out`, that was killed, and what lies in the other one."""
        for name, text in self.more().items():
            (folder.parent / "NEW" / name).write_bytes(text)
        self.office.killed_in(folder, LINES, self.office.prompt(out=out))

    def refusals(self, title, out, programs):
        tried = Tried(title)
        with self.office.folder(self.office.old, "NEW", "OUT") as folder:
            self.begin(folder, out)
            before = self.tops(folder)
            for what, words in programs:
                ended = self.office.ran(folder, words)
                is_refused = ended.status == 4 and OPEN in ended.complained and ended.printed == "" and self.tops(folder) == before
                tried.add("refused with status 4" if is_refused else None, what, ended)
                if self.tops(folder) != before:
                    self.restore(folder, before)
        return tried.tell()

    def restore(self, folder, tops):
        for name, files in tops.items():
            shutil.rmtree(folder.parent / name)
            (folder.parent / name).mkdir()
            for path, text in files.items():
                (folder.parent / name / path).write_bytes(text)

    def read(self, title, out):
        """What reads alone: it prints what it prints of the old tables, and one line more on standard error."""
        tried = Tried(title)
        with self.office.folder(self.office.old, "NEW", "OUT") as folder:
            for name, text in self.more().items():
                (folder.parent / "NEW" / name).write_bytes(text)
            without = [self.office.ran(folder, words) for _, words in self.readers()]
            self.begin(folder, out)
            before = self.tops(folder)
            for (what, words), was in zip(self.readers(), without):
                ended = self.office.ran(folder, words)
                said = ended.complained.removesuffix(was.complained)
                is_said = OPEN in said and f"{len(LINES)} commands" in said and said.count("\n") == 1
                holds = is_said and (ended.status, ended.printed) == (was.status, was.printed) and self.tops(folder) == before
                tried.add("said so" if holds else None, what, ended)
        return tried.tell()

    def after(self, title, out):
        """Once the day is closed nothing of it is left but the closed log, and nobody is refused."""
        tried = Tried(title)
        with self.office.folder(self.office.old, "NEW", "OUT") as folder:
            self.begin(folder, out)
            words = self.office.prompt(out=out)
            ended = self.office.ran(folder, words)
            whole = self.office.whole
            new = whole if out == "." else {name: whole[name] for name in (*INPUTS, LOG, "STATION1.TXT", "STATION2.TXT")}
            holds = ended.status == 0 and files_of(folder / out) == new and (out == "." or ended.files == self.office.old)
            tried.add("closed" if holds else None, "the day", ended)
            before = self.tops(folder)
            for what, words in self.from_it() + self.into(".") + self.into(out) + self.readers():
                ended = self.office.ran(folder, words)
                # The journal of the first audit is of the tables before the day. And two tables may differ.
                is_well = ended.status == 0 or (ended.status == 6 and out == "." if "audit" in what else ended.status == 1 and "diff" in what)
                tried.add("not refused" if OPEN not in ended.complained and is_well else None, what, ended)
                self.restore(folder, before)
        return tried.tell()

    def kills(self):
        """A day with a folder of its own is killed at each call: where an answer was shown and its log is open, the server is refused in the
        tables' folder. Where the log is closed it is not, whatever else the day has left."""
        words = self.office.prompt(out="../OUT")
        with self.office.folder(self.office.old, "OUT") as folder:
            log = self.office.work / "calls"
            self.office.ran(folder, words, live.typed(LINES), FAULT_LOG=log, FAULT_LINES=1)
            count = len(log.read_text().splitlines())
            log.unlink()
        kills = [(f"call {number}", number) for number in range(1, count + 1)]
        return self.office.each("kills of a day with a folder of its own, and the server in the tables' folder", kills, self.kill)

    def kill(self, number):
        with self.office.folder(self.office.old, "NEW", "OUT") as folder:
            day = self.office.ran(folder, self.office.prompt(out="../OUT"), live.typed(LINES), FAULT_AT=number, FAULT_HOW="kill", FAULT_LINES=1)
            log = files_of(folder.parent / "OUT").get(LOG, b"-")
            ended = self.office.ran(folder, self.server(SETUP, "../NEW"))
            is_refused = ended.status == 4 and OPEN in ended.complained
        if killed_at(day) and ended.status == 2 and "the folder is not recovered" in ended.complained:
            return "killed while the mark takes its place: refused with status 2", ended
        if not killed_at(day) or not is_refused and ended.status != 0:
            return None, ended
        if log.startswith(b"-"):
            return (None if is_refused else "not open: the server runs"), ended
        return ("open: refused" if is_refused else "not yet answered: the server runs" if not day.shown else None), ended

    def beside_part(self):
        for title, out in (("the folder of an open day", "."), ("the tables' folder of a day with a folder of its own", "../OUT")):
            yield self.refusals(f"programs that read from {title}", out, self.from_it())
            yield self.refusals(f"programs that write into {title}", out, self.into("."))
            yield self.read(f"what reads alone in {title}", out)
            yield self.after(f"after the closing, {title}", out)
        yield self.refusals("programs that write into the folder of its own", "../OUT", self.into("../OUT"))
        yield self.kills()
