"""Lines that come through pipes, cut at each byte."""

import contextlib
import os
import re
import time

import live
from office import SECONDS, files_of
from small import INPUTS, NAME, SETUP, SETUP_LINES, Ended, setup_of

# What is typed, and cut. Cut anywhere, a line may be another one: DELETE a part of a remark, 11 a 1, QUIT a QU.
TEXT = b"USE STOCK EXCLUSIVE\n* DELETE\nGO 12\n\nREPLACE COUNT WITH 11\n? COUNT\nSTATION 2\nUSE MEMBERS\nSTATION 1\nDELETE\nQUIT\n"
CUT = "not performed: the line was cut"
LIVE_LINES = [*SETUP_LINES[:3], b"STATION DESK1", b"STATION DESK2"]


def answered(text):
    """How many lines of a text have an answer, up to QUIT."""
    lines = text.split(b"\n")[:-1]
    whole = lines[: lines.index(b"QUIT")] if b"QUIT" in lines else lines
    return len([line for line in whole if live.lines_of(line) and not line.startswith(b"STATION ")])


def is_cut_told(said):
    return CUT in said.lower()


class Lines:
    """Whole lines alone are performed. Where something else is left out, it is told."""

    def __init__(self, office):
        self.office, self.ends = office, {}
        self.live_files = {name: office.old[name] for name in INPUTS} | {SETUP: setup_of(LIVE_LINES)}

    # ---- cut lines

    def cut(self, at):
        """A text that is cut, through a pipe."""
        return self.judged(TEXT[:at], self.office.day(self.office.old, TEXT[:at]))

    def cut_file(self, at):
        """The same as a file on standard input."""
        with self.office.folder(self.office.old) as folder:
            path = folder.parent / "TYPED"
            path.write_bytes(TEXT[:at])
            with open(path, "rb") as file, self.office.started(folder, self.office.prompt(), stdin=file) as program:
                printed, told = program.communicate(timeout=SECONDS)
                ended = Ended(program.returncode, printed.decode(), told.decode(), files_of(folder))
        return self.judged(TEXT[:at], ended)

    def judged(self, text, ended):
        whole = text[: text.rindex(b"\n") + 1] if b"\n" in text else b""
        rest = b"" if b"QUIT\n" in whole else text[len(whole) :]
        wanted = self.end_of(whole)
        said = ended.printed + ended.complained
        shown = [line for line in ended.shown if not line.startswith(NAME) and not is_cut_told(line)]
        if ended.status != 0 or ended.files != wanted.files or shown != wanted.shown[:-1] or len(shown) != answered(whole):
            return None, ended
        # A blank line or a remark that is cut may be told or not.
        if is_cut_told(said) != bool(rest) and not (rest and not live.lines_of(rest) and not is_cut_told(said)):
            return None, ended
        return ("not performed, and told" if is_cut_told(said) else "nothing was cut" if not rest else "a remark that was cut"), ended

    def end_of(self, whole):
        """The day of whole lines."""
        if whole not in self.ends:
            self.ends[whole] = self.office.day(self.office.old, whole)
        return self.ends[whole]

    # ---- live stations

    @contextlib.contextmanager
    def desks(self):
        """A folder with the pipes of two stations, held open at both ends, so that a clerk may go and come; the paths of the first."""
        with self.office.folder(self.live_files) as folder:
            for name in ("DESK1", "DESK1.OUT", "DESK2", "DESK2.OUT"):
                os.mkfifo(folder / name)
            yield folder

    def live(self, folder):
        return self.office.started(folder, [*self.office.prompt(), "--live"])

    def opened(self, folder, name, flags):
        """A pipe, opened by a clerk who comes when the other end is there: at most some seconds."""
        end = time.monotonic() + SECONDS
        while True:
            try:
                return os.open(folder / name, flags | os.O_NONBLOCK)
            except OSError:
                if time.monotonic() > end:
                    raise
                time.sleep(0.002)

    def live_cut(self, at):
        """The same at a station of its own: what was answered there, and what is told there or on standard error."""
        with self.desks() as folder:
            # The screens are held, so that no answer gets lost.
            screens = [os.open(folder / f"DESK{n}.OUT", os.O_RDWR) for n in (1, 2)]
            with self.live(folder) as program:
                for name, text in (("DESK2", b""), ("DESK1", LIVE_TEXT[:at])):
                    pipe = self.opened(folder, name, os.O_WRONLY)
                    os.write(pipe, text)
                    os.close(pipe)
                printed, told = program.communicate(timeout=SECONDS)
                shown = drained(screens[0])
                ended = Ended(program.returncode, printed.decode() + shown.decode(), told.decode(), files_of(folder))
            for screen in screens:
                os.close(screen)
        text = LIVE_TEXT[:at]
        whole = text[: text.rindex(b"\n") + 1] if b"\n" in text else b""
        rest = text[len(whole) :]
        answers = ended.files.get("STATION1.TXT", b"").decode().split("\n")[:-1]
        lines = [line for line in shown.decode().split("\n")[:-1] if not is_cut_told(line)]
        said = is_cut_told(shown.decode() + ended.complained)
        if ended.status != 0 or len(answers) != answered(whole) or lines != answers or said != bool(rest) and live.lines_of(rest):
            return None, ended
        return ("not performed, and told" if said else "nothing was cut" if not rest else "a remark that was cut"), ended

    def lines_part(self):
        cuts = [(f"{at} bytes", at) for at in range(len(TEXT) + 1)]
        yield self.office.each("a text through a pipe, cut at each byte", cuts, self.cut)
        yield self.office.each("a text from a file, cut at each byte", cuts, self.cut_file)
        cuts = [(f"{at} bytes", at) for at in range(1, len(LIVE_TEXT) + 1)]
        yield self.office.each("a text at a live station, cut at each byte", cuts, self.live_cut)


LIVE_TEXT = b"USE STOCK EXCLUSIVE\nGO 12\n* DELETE\nREPLACE COUNT WITH 11\n? COUNT\n"


def drained(end):
    """What waits in a pipe."""
    os.set_blocking(end, False)
    found = b""
    with contextlib.suppress(BlockingIOError):
        while more := os.read(end, 65536):
            found += more
    return found
