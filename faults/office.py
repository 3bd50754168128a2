"""What the tools of this folder share: the server's own names and lines, the demo office, and a start of the server in a folder."""

import hashlib
import os
import pathlib
import re
import signal
import struct
import subprocess
import sys
import tempfile

HERE = pathlib.Path(__file__).resolve().parent
DEMO = HERE.parent / "demo"
PROGRAM = HERE.parent / "crates/station_server/out/station_server"
SECONDS = 60
# A start on this setup, which isn't there, recovers the folder and writes nothing.
NO_SETUP = "NONE.SET"

# ---- names that are the server's own: what each begins with, that of a new file before its name, and that of the list.
# FAULTS_NAMES=old in the environment chooses those of the programs before ~niqarthu.
if os.environ.get("FAULTS_NAMES") == "old":
    RESERVED, TEMPORARY, LIST = "~", "~", "~~list"
else:
    RESERVED, TEMPORARY, LIST = "~niqarthu", "~niqarthu~", "~niqarthu.list"
# The name of a run's journal.
JOURNAL = "JOURNAL.TXT"
# The list is written under this name first.
NEW_LIST = TEMPORARY + LIST
# A name that begins with ~ and is not the server's is the office's: a table, its index and a script of the setup, and others beside them.
TILDE_IS_FREE = RESERVED != "~"
TABLE, INDEX, SCRIPT = ("~STOCK.DBF", "~BYCODE.NDX", "~C.PRG") if TILDE_IS_FREE else ("STOCK.DBF", "BYCODE.NDX", "STOCK.PRG")
FOREIGN = {"KEEP.ME": b"kept\n", "REPORT.DOC": b"\xd0\xcf\x11\xe0" * 600, "EMPTY": b"", os.fsdecode(b"caf\xe9.DOC"): b"no UTF-8"}
if TILDE_IS_FREE:
    # Two of them look like lists of the server, if only their names were its own.
    FOREIGN |= {"~$REPORT.DOC": b"\x04Anna", "~~list": b"STOCK.DBF\nSTATION1.TXT\n", "~~~list": b"KEEP.ME\n", "~x": b"", "~": b"a wave"}
    FOREIGN |= {"~STATION1.TXT": b"not these\n", "~KEEP.ME": b"nor these\n", "~niqarth": b"short", "~NIQARTHU.LIST": b"KEEP.ME\n", "a~niqarthu~b": b""}
    FOREIGN |= {os.fsdecode(b"~niqarthu~\xff"): b"no UTF-8"}

# ---- what the server prints.
COUNT = "station_server: 138 commands\n"
# On standard error, before a run: the files that stay as they are, since the new ones have other names, and those of other tables and indexes
# whose places the new ones take. Each line is written in these parts, and a stream that fails at one of them gets none of the others.
KEPT = [["station_server: ", TABLE, " stays as it is: the new ", "table", " is ", "STOCK", ".DBF", "\n"],
        ["station_server: ", INDEX, " stays as it is: the new ", "index", " is ", "BYCODE", ".NDX", "\n"],
        ["station_server: ", "./STOCK.DBF", " is there and is not read: it is replaced\n"],
        ["station_server: ", "./BYCODE.NDX", " is there and is not read: it is replaced\n"]]
# And where it takes text, after each run that has written its files.
REFUSED = "station_server: 26 refused: STATION1.TXT 4 STATION2.TXT 4 STATION3.TXT 8 STATION4.TXT 6 STATION5.TXT 4\n"
# What is said of a folder in which the new files are to take their places, or have begun to.
UNOPENED = "station_server: cannot open the folder of --out: is it there, and may it be opened?\n"
UNRECOVERED = "station_server: cannot recover the folder\n"
# The folder has a list that no run has written.
BAD_LIST = f"station_server: cannot recover the folder: {LIST} is no list of new files\n"
UNWRITTEN = "station_server: cannot write the new files\n"
UNFINISHED = "station_server: not all new files are in place: the next start goes on\n"
IN_USE = "station_server: another run writes into the folder\n"
UNPRINTED = "station_server: cannot print\n"


def without_kept(said):
    """What is said beside the files that stay as they are or are replaced, also where a stream has failed in one of these lines."""
    for parts in KEPT:
        for count in range(len(parts), 1, -1):
            if said.startswith("".join(parts[:count])):
                said = said.removeprefix("".join(parts[:count]))
                break
        else:
            if said == parts[0] or said.startswith(parts[0] * 2):
                said = said.removeprefix(parts[0])
    return said


def unread(path):
    """What is said of a file that can't be read."""
    return f"station_server: {path}: cannot read: is it there, a file, and may it be read?\n"


def unwritten(name):
    """What is said of a new file that can't be written."""
    return f"station_server: cannot write {name}: is there room, and may the folder be written?\n"


def is_unread(said):
    return re.fullmatch("station_server: [~A-Z.]+: cannot read: is it there, a file, and may it be read[?]\n", said)


def is_unwritten(said):
    return re.fullmatch("station_server: cannot write [A-Z0-9]+[.][A-Z]+: is there room, and may the folder be written[?]\n", said)


def is_unready(said):
    """Whether it is said that the folder can't be opened or recovered, or a file of its list not replaced."""
    return said in (UNOPENED, UNRECOVERED) or re.fullmatch(UNRECOVERED[:-1] + ": [A-Z0-9]+[.][A-Z]+: cannot be replaced\n", said)


def unrecovered(path, folder):
    """What is said of a file to be read, where its folder has a list."""
    return f"station_server: {path}: the folder is not recovered: start with --out {folder}\n"


def is_reserved(name):
    """Whether a name is the server's own. One that is no UTF-8 is another's."""
    return name.startswith(RESERVED) and name not in FOREIGN


def is_written(name):
    """Whether the server writes files of such a name."""
    return re.fullmatch("[A-Z0-9]+[.](DBF|DBT|NDX|TXT)", name) is not None


class Ended:
    """How a run ended: its status, what it printed on both streams, and the files of its folder then."""

    def __init__(self, status, printed, complained, files):
        self.status, self.printed, self.complained, self.files = status, printed, complained, files

    def recovered(self):
        """Whether it is a start without a setup that has recovered the folder."""
        return self.status == 2 and self.printed == "" and self.complained == unread(NO_SETUP)

    def __str__(self):
        return f"status {self.status}: {(self.complained or self.printed).strip()!r}; reserved: {sorted(n for n in self.files if is_reserved(n))}"


def files_of(folder):
    """The files of a folder, links followed, and no folders."""
    found = {}
    with os.scandir(folder) as entries:
        for entry in entries:
            if entry.is_file():
                with open(entry.path, "rb") as file:
                    found[entry.name] = file.read()
    return found


def fill(folder, files):
    """Makes the folder, with these files."""
    os.mkdir(folder)
    for name, content in files.items():
        with open(os.path.join(folder, name), "wb") as file:
            file.write(content)


def old_files():
    """The demo office before a run, with last year's answers, so that all but the two new indexes of the staff list take the
    place of other files; and with files of others beside them."""
    files = {path.name: path.read_bytes() for path in DEMO.iterdir() if path.is_file()}
    for station in range(1, 6):
        files[f"STATION{station}.TXT"] = b"last year's answers\n"
    for own, name in (("STOCK.DBF", TABLE), ("BYCODE.NDX", INDEX), ("STOCK.PRG", SCRIPT)):
        files[name] = files[own]
        files["OFFICE.SET"] = files["OFFICE.SET"].replace(b" " + own.encode(), b" " + name.encode())
    return files | FOREIGN


def expected_answers():
    """The answers that the demo's README promises, by file."""
    return {path.name: path.read_bytes() for path in (DEMO / "expected").iterdir()}


def sums_in(word, text):
    """The files that a journal tells with this word: of each path its length and its digest."""
    told = re.findall(rb"^%s (\d+) (\d+) ([0-9a-f]{64}) (.+)$" % word, text, re.MULTILINE)
    return {os.fsdecode(path): (int(length), digest.decode()) for count, length, digest, path in told if int(count) == len(path)}


def are_sums_of(told, files):
    """Whether lengths and digests are those of the files."""
    return all(name in files and told[name] == (len(files[name]), hashlib.sha256(files[name]).hexdigest()) for name in told)


def is_as_long_as_it_says(name, content):
    """Whether a table, a memo file or an index file has the length that its header tells."""
    if name.endswith(".DBF"):
        records, header, record = struct.unpack_from("<IHH", content, 4)
        return len(content) == header + records * record + 1
    if name.endswith(".DBT"):
        return len(content) == struct.unpack_from("<I", content)[0] * 512
    return not name.endswith(".NDX") or len(content) == struct.unpack_from("<I", content, 4)[0] * 512


class Office:
    """The office's files before and after a run, and the starts of a program over folders."""

    def __init__(self, program, library, journal=False):
        self.program, self.library, self.journal = program, library, journal
        self.old, self.patterns = old_files(), expected_answers()
        if journal:
            self.old[JOURNAL] = b"last year's journal\n"
        self.new = None

    def served(self, folder, setup="OFFICE.SET", out=".", before=None, **variables):
        """A run in a folder, with the variables of fail.c."""
        status, printed, complained = self.started(folder, setup, out, before, **variables)
        return Ended(status, printed, complained, files_of(folder))

    def started(self, folder, setup=NO_SETUP, out=".", before=None, **variables):
        """A run's status, and what it printed on both streams."""
        command = [self.program, "--setup", setup, "--out", out, "--today", "19870315"] + ["--journal"] * self.journal
        names = {"LD_PRELOAD": self.library, **variables} if variables else {}
        try:
            ended = subprocess.run(command, cwd=folder, env={n: str(v) for n, v in names.items()}, capture_output=True, timeout=SECONDS, preexec_fn=before)
            said = without_kept(ended.stderr.decode())
            if ended.returncode == 0:
                said = "" if REFUSED.startswith(said) else said.removeprefix(REFUSED)
            return ended.returncode, ended.stdout.decode(), said
        except subprocess.TimeoutExpired:
            return None, "", "no end"

    def take_new(self, ended):
        """Takes the files that a run without a fault has left as the new ones, or says why they can't be."""
        self.new = ended.files
        if ended.status != 0 or ended.printed != COUNT:
            return str(ended)
        if any(map(is_reserved, self.new)) or not self.old.keys() <= self.new.keys():
            return "there are files too many or too few"
        # The server writes no other files than these.
        other = [name for name, content in self.old.items() if content != self.new[name] and not is_written(name)]
        if other:
            return f"{other[0]} is not as it was"
        wrong = [name for name, content in sorted(self.new.items()) if not is_as_long_as_it_says(name, content)]
        if wrong:
            return f"{wrong[0]} has not the length that it says"
        return None if self.is_new(self.new) else "the answers are not those in demo/expected"

    def is_old(self, files):
        return files == self.old

    def is_new(self, files):
        """Whether these are the new files: the same bytes, but for the answers that the schedule tells."""
        return files.keys() == self.new.keys() and all(self.is_right(name, content, files) for name, content in files.items())

    def is_right(self, name, content, files):
        if name == JOURNAL and self.journal:
            return self.is_journal(content, files)
        if name not in self.patterns:
            return content == self.new[name]
        lines, wanted = content.split(b"\n"), self.patterns[name].split(b"\n")
        return len(lines) == len(wanted) and all(pattern in (b"(varies)", line) for line, pattern in zip(lines, wanted))

    def is_journal(self, text, files):
        """Whether this is the whole journal of a run that read the old files and wrote the new ones."""
        read, wrote = sums_in(b"read", text), sums_in(b"wrote", text)
        named = {"OFFICE.SET"} | {word for line in self.old["OFFICE.SET"].decode().splitlines() if line[:1] != "*" for word in line.split() if "." in word}
        written = {name for name in files if is_written(name) and name != JOURNAL}
        whole = text.endswith(b"\nend\n") and b"\nreindex no\nentries 138\n" in text
        return whole and read.keys() == named and wrote.keys() == written and are_sums_of(read, self.old) and are_sums_of(wrote, files)

    def which(self, files):
        """Whether the files are the old or the new ones, or neither."""
        return "old" if self.is_old(files) else "new" if self.is_new(files) else "mixed"


def library_in(work):
    """fail.c, compiled."""
    made = work / "fail.so"
    subprocess.run(["cc", "-O1", "-shared", "-fPIC", "-o", made, HERE / "fail.c"], check=True)
    return made


def program_of(words, tool):
    """The program that the command line names."""
    program = pathlib.Path(words.program).resolve()
    if not os.access(program, os.X_OK):
        sys.exit(f"{tool}: {program} is not there: build it by demo/run --proved, or name another")
    return program


def in_memory():
    """A folder for the trials, in memory where the system has such files."""
    return tempfile.TemporaryDirectory(dir="/dev/shm" if os.access("/dev/shm", os.W_OK) else None, prefix="faults-")
