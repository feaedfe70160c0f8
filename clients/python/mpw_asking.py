"""What mpw-ask asks a desk: lines, whose replies it prints, and then a report, a page and waivers of an earlier run."""
import enum
import sys
import time
from contextlib import suppress

from mpw_carry import lines_of
from mpw_desk import (
    LONGEST_LINE, BadWord, Denied, DeskError, Lost, NotADesk, NotFinished, NotSent, Refused, State, deck_of, deck_text,
    library_bytes, read_token, shortened)
from mpw_files import FileFault, read_file, write_whole
from mpw_lines import Unusable, line_of
from mpw_page import data_of, page_of
from mpw_progress import Progress
from mpw_report import report_of

AFTER_A_RUN = ("status", "markers", "waive", "sign", "waivers", "verdict")


class Stopped(DeskError):
    """The connection is gone in the middle of a script. The text names the line at which the script goes on."""


class Stage(enum.Enum):
    """How far a line is."""

    BEFORE, SENT, ANSWERED = range(3)


class Asking:
    """A conversation with a desk, and what came of it."""

    def __init__(self, desk, options):
        self.desk, self.options = desk, options
        self.failed = self.is_finished = False
        self.placements, self.stage = {}, Stage.BEFORE

    def fail(self, line, reply, place=""):
        """Prints a line that was denied or refused."""
        self.failed = True
        print(f"mpw-ask: {place}{shortened(line, 400)}: {reply}", file=sys.stderr)

    def begin(self, token):
        """Opens the session of the options, and activates their roles. Returns whether all of that was accepted."""
        lines = [("open", self.options.user, token)] if self.options.user else []
        for words in lines + [("activate", role) for role in self.options.role]:
            try:
                self.desk.ask(*words)
            except (Denied, Refused) as error:
                self.fail(" ".join(words[:2]), error)
                return False
        return True

    def ask(self, line, place="", quietly=False):
        """Asks a line, and prints its reply. If quietly, a failure isn't printed on the standard error too."""
        self.stage = Stage.BEFORE
        if self.options.wait and line.verb in AFTER_A_RUN:
            self.wait()
        text, payload, deck = with_file(line)
        self.stage = Stage.SENT
        reply = self.desk.tell(text, payload, limit=self.desk.run_limit if line.verb == "run" else None)
        self.stage = Stage.ANSWERED
        sys.stdout.write(reply.text)
        sys.stdout.flush()
        if reply.is_accepted:
            self.note(line)
            return
        self.failed = True
        if not quietly:
            self.fail(line.shown, reply.first_line + place_in(deck, reply, line.path), place)

    def ask_or_stop(self, line, names, place="", quietly=False):
        """Asks a line. If the connection is lost, the fault says where to go on. `names` are the names of this line in two
        places of that sentence, and of the next line."""
        what, here, after = names
        try:
            self.ask(line, place, quietly)
        except (Lost, NotADesk) as fault:
            if self.stage is Stage.ANSWERED:
                text, remedy = "was answered, and then", f"Go on at {after}"
            elif self.stage is Stage.BEFORE or isinstance(fault, NotSent):
                text, remedy = "wasn't asked", f"Go on at {here}"
            else:
                text, remedy = "got no reply", f"If the desk executed it, go on at {after}, else at {here}"
            if self.options.script is not None:
                remedy = "A desk of --script ends with its connection: use mpw serve for a longer script"
            raise Stopped(f"{what} {text}: {fault}. {remedy}") from None

    def note(self, line):
        """Notes what an accepted line means for later ones."""
        if line.verb in ("run", "cancel"):
            self.is_finished = False
            if self.options.wait and line.verb == "run":
                self.wait()
        elif line.verb in ("place", "unplace"):
            self.note_placement(line.text)

    def note_placement(self, text):
        """Stores what is placed, for the page."""
        verb, cell, label, *words = text.split(" ")
        if verb == "place":
            self.placements[cell, label] = " ".join([cell, label, *words])
        else:
            self.placements.pop((cell, label), None)

    def wait(self):
        """Waits until the run is finished. If no run goes on, the reply to the next line says so."""
        if self.is_finished:
            return
        progress = Progress()
        try:
            self.desk.wait(self.options.poll, self.options.wait_limit, progress.show)
            self.is_finished = True
        except NotFinished as error:
            if error.status.state is not State.IDLE:
                self.fail("--wait", f"{error}: look again later, or wait longer (--wait-limit)")
        except (Denied, Refused) as error:
            self.fail("status", error)
        finally:
            progress.clear()

    def carry(self):
        """Asks again for the waivers of an earlier listing, and prints the lines for whoever signs."""
        if self.options.wait:
            self.wait()
        try:
            carried = self.desk.carry(self.options.earlier)
        except (Denied, Refused) as error:
            self.fail("--carry", error)
            return
        for line in lines_of(carried, self.options.earlier):
            print(line)
        if carried.left:
            self.fail("--carry", f"the desk answers no more lines on this connection: run it again for {len(carried.left)} markers")

    def write(self):
        """Writes the report and the page."""
        options = self.options
        if options.wait and (options.report or options.page):
            self.wait()
        deck = read_file(options.deck, deck_text) if options.deck else ""
        for option, out, text in ("--report", options.report, self.report), ("--page", options.page, self.page):
            try:
                if out:
                    write_whole(out, text(deck))
            except (Denied, Refused) as error:
                self.fail(f"{option} {out}", error)

    def report(self, deck):
        return report_of(self.desk.markers(), self.desk.waivers(), deck, self.options.top)

    def page(self, deck):
        made = time.strftime("%Y-%m-%d %H:%M UTC", time.gmtime())
        return page_of(data_of(self.desk, self.placements.values(), deck, made))


def with_file(line):
    """The text of a line with the token of its file, the payload of its file, and that as a deck if it is one."""
    if line.verb == "deck":
        deck = read_file(line.path, deck_of)
        return line.text, deck.text, deck
    if line.verb == "submit":
        return line.text, read_file(line.path, library_bytes), None
    if line.path is not None:
        return f"{line.text} {read_file(line.path, read_token)}", None, None
    return line.text, None, None


def place_in(deck, reply, path):
    """Which line of a deck's file a refusal is of, if the desk counts another one: it counts without comments."""
    rest = reply.first_line.split(" ")[-1]
    line = deck.line_of(int(rest)) if deck is not None and rest.isdecimal() else None
    return "" if line is None or str(line) == rest else f": line {line} of {path}"


def input_lines(is_terminal):
    """The lines of the standard input. A terminal gets a prompt: on the standard error, unless the standard output is a
    terminal too, where a line can be edited."""
    if is_terminal and sys.stdout.isatty():
        with suppress(ImportError):
            import readline  # noqa: F401, which gives input() its editing
        while True:
            try:
                yield input("mpw> ")
            except EOFError:
                return
    while True:
        if is_terminal:
            print("mpw> ", end="", file=sys.stderr, flush=True)
        line = sys.stdin.buffer.readline(LONGEST_LINE + 2)
        if not line:
            return
        yield (line[:-1] if line.endswith(b"\n") else line).decode("utf-8", "surrogateescape")


def ask_input(asking):
    """Asks the lines of the standard input. What is no line ends it, but on a terminal."""
    is_terminal = sys.stdin.isatty()
    for number, text in enumerate(input_lines(is_terminal), 1):
        if not text or text.startswith("#"):
            continue
        names = f"line {number}", f"line {number}", f"line {number + 1}"
        try:
            asking.ask_or_stop(line_of(text), names, f"line {number}: ", is_terminal and sys.stdout.isatty())
        except (Unusable, BadWord, FileFault) as fault:
            if not is_terminal:
                raise type(fault)(f"line {number}: {fault}") from None
            print(f"mpw-ask: {fault}", file=sys.stderr)


def ask_lines(asking, lines):
    """Asks the lines of the command line."""
    for line in lines:
        asking.ask_or_stop(line, (shortened(line.shown, 400), "this line", "the next one"))
