"""An open day of the small office, started again with another setup, or on tables, indexes and memo files that somebody has changed."""

from office import DEMO
from small import INPUTS, LINES, NAME, OTHER_FILE, SETUP, SETUP_LINES, setup_of

# Of each file so many bytes are changed, at equal distances, and each of its first ones: its header.
PLACES, HEADER = 100, 68


def setups(open_files):
    """Setups that are others, and files that they need."""
    lines = SETUP_LINES
    stock, index = open_files["STOCK.DBF"], open_files["BYCODE.NDX"]
    return [
        ("a station more", lines + [b"STATION AUDIT.PRG"], {}),
        ("a station less", lines[:-1], {}),
        ("without the index", [lines[0], *lines[2:]], {}),
        ("without the table that nobody has changed", lines[:2] + lines[3:], {}),
        ("another file for the table", [lines[0].replace(b"STOCK.DBF", b"OTHER.DBF"), *lines[1:]], {"OTHER.DBF": stock[:80] + b"X" + stock[81:]}),
        ("another file for the table, with the same bytes", [lines[0].replace(b"STOCK.DBF", b"OTHER.DBF"), *lines[1:]], {"OTHER.DBF": stock}),
        ("another name for the table", [lines[0].replace(b"STOCK ", b"STORE "), lines[1].replace(b"STOCK ", b"STORE "), *lines[2:]], {}),
        ("the tables in another order", lines[2:3] + lines[:2] + lines[3:], {}),
        ("the stations in another order", lines[:3] + lines[:2:-1], {}),
        ("a remark more", [b"* Our office.", *lines], {}),
        ("a blank at a line's end", [lines[0] + b" ", *lines[1:]], {}),
        ("an index more", [*lines[:2], lines[1].replace(b"BYCODE", b"BYTWO"), *lines[2:]], {"BYTWO.NDX": index}),
    ]


class Foreign:
    """Starts of an open day on what its log has not begun with: each is refused with status 5, the file is named, and everything stays. A file
    that can't be opened as a table, an index or a memo file at all is refused as on any day, with status 2; a setup that names a folder which
    isn't there, with status 4."""

    def __init__(self, office):
        self.office = office

    def judged(self, files, names):
        ended = self.office.day(files)
        if ended.printed or ended.files != files:
            return None, ended
        # Before it, it is said which files would stay beside the new ones.
        if ended.status == 5 and ended.complained.splitlines()[-1] in [f"{NAME}: {name} {OTHER_FILE}" for name in names]:
            return "refused with status 5", ended
        if ended.status == 4 and ended.complained.splitlines()[-1].startswith(f"{NAME}: cannot put STATIONS.DAY into "):
            return "names no folder, status 4", ended
        return ({1: "no setup, status 1", 2: "can't be opened, status 2"}.get(ended.status)), ended

    def changed(self, name):
        """A file with one byte changed: at many places, by its lowest bit and by all."""
        text = self.office.open[name]
        places = sorted({*range(min(HEADER, len(text))), *range(0, len(text), max(1, len(text) // PLACES)), len(text) - 1})
        return [(f"byte {at} by {mask}", text[:at] + bytes([text[at] ^ mask]) + text[at + 1 :]) for at in places for mask in (1, 0xFF)]

    def others_of(self, name):
        """Other texts in place of a file: longer, shorter, and another of its kind."""
        text, kind = self.office.open[name], name[-4:]
        other = {".DBF": "STAFF.DBF", ".NDX": "BYNAME.NDX", ".DBT": None}[kind]
        found = [("one byte more", text + b"\x1a"), ("a block more", text + bytes(512)), ("one byte less", text[:-1])]
        found += [("half", text[: len(text) // 2]), ("nothing", b"")]
        return found + ([("another of its kind", (DEMO / other).read_bytes())] if other else [])

    def foreign_part(self):
        open_files = self.office.open
        tries = [(what, open_files | more | {SETUP: setup_of(lines)}) for what, lines, more in setups(open_files)]
        yield self.office.each("setups that are others", tries, lambda files: self.judged(files, [SETUP]))
        for name in [SETUP, *INPUTS]:
            texts = self.changed(name) + (self.others_of(name) if name != SETUP else [])
            tries = [(what, open_files | {name: text}) for what, text in texts]
            # Another setup may name files that are not there, and another table be named by the index that doesn't fit it.
            yield self.office.each(f"{name}, changed", tries, lambda files: self.judged(files, [SETUP, *INPUTS]))
        yield self.office.each("files that are as they were", [("without --reindex", ()), ("with --reindex", ("--reindex",))], self.kept, 1)

    def kept(self, words):
        """The day goes on as it began."""
        with self.office.folder(self.office.open) as folder:
            ended = self.office.ran(folder, [*self.office.prompt(), *words])
        if words:
            return ("refused with status 5" if self.office.refused(ended, self.office.open) else None), ended
        return ("gone on with" if self.office.performed(ended, len(LINES)) else None), ended
