"""`mpw check` with what its program doesn't take: --known and --page, a library that gzip compressed, and a deck with comments, empty
lines, CRLF or units.

    mpw_checking.py MPW .. check [WORD ..]

`mpw` starts this if a word or the deck asks for it. The program gets a plain deck and the unpacked library. The standard output has what it
prints; on the standard error the names and lines of the given files are put back. The exit status is the program's. With --known it is 0 if
all markers are known.
"""
import os
import signal
import subprocess
import sys
import tempfile
from contextlib import ExitStack

UNFORESEEN = 70  # as if the program can't be run


def end_unexpectedly(*fault):
    """Ends after an unforeseen fault. Python's own status would be that of markers."""
    sys.__excepthook__(*fault)
    os._exit(UNFORESEEN)


sys.excepthook = end_unexpectedly

from mpw_desk import BadDeck, deck_of  # noqa: E402
from mpw_files import FileFault, end_cleanly, is_one_file, read_file  # noqa: E402
from mpw_given import given_of  # noqa: E402
from mpw_known import Known  # noqa: E402
from mpw_left_out import LeftOut  # noqa: E402
from mpw_relay import Names, relayed  # noqa: E402

HERE = os.path.dirname(os.path.abspath(__file__))
# With these no whole listing is printed.
PARTIAL = "--limit", "--summary", "--tiles"
OUTPUTS = "--report", "--picture", "--page"
WARNING = 2  # of zcat: it left out what comes after the compressed bytes
STATUSES = {"usage": 2, "file": 3, "refused": 4}


class Fault(Exception):
    """Nothing is checked, or the check doesn't count: a text and the exit status."""

    def __init__(self, kind, text):
        super().__init__(text)
        self.status = STATUSES[kind]


def test_words(given):
    """Refuses words that don't go together, and an output that is an input or another output."""
    if given.known is not None:
        for name in PARTIAL:
            if given.has(name):
                raise Fault("usage", f"--known needs the whole listing: leave out {name}")
    outputs = [path for path in map(given.value, OUTPUTS) if path is not None]
    inputs = [path for path in (given.deck, given.file, given.known) if path not in (None, "-")]
    for place, path in enumerate(outputs):
        if any(is_one_file(path, other) for other in [*outputs[:place], *inputs]):
            raise Fault("usage", f"{path}: it is an input or another output, and isn't written over: name another file")


def plain_deck_of(path):
    """The plain deck of a file that has another one, or nothing: then the program reads the file itself."""
    if path is None or not os.path.isfile(path):
        return None
    try:
        deck = deck_of(path)
        with open(path, "rb") as file:
            return None if file.read(len(deck.text) + 1) == deck.text else deck
    except BadDeck as fault:
        raise Fault("refused", f"{path}: {fault}") from None
    except OSError as error:
        raise Fault("file", f"{path}: {error.strerror}") from None


class Check:
    """A check, with a folder for the files that the program gets instead of those that were given."""

    def __init__(self, mpw, given, folder):
        self.mpw, self.given, self.folder = mpw, given, folder
        self.replaced, self.names, self.unpacker = {}, Names(), None
        self.left_out = LeftOut() if given.has("--skip-faulty") else None

    def take_deck(self):
        """Writes the plain deck, if the given one isn't plain."""
        deck = plain_deck_of(self.given.deck)
        if deck is not None:
            path = os.path.join(self.folder, "plain.deck")
            with open(path, "wb") as file:
                file.write(deck.text)
            self.replaced["--deck"] = path
            self.names.add(path, self.given.deck, deck.line_of)

    def take_library(self):
        """Unpacks a compressed library: into the standard input of the check, or into a file if that is in use or the library is read twice."""
        path = self.given.file
        if path is None or not path.endswith(".gz") or not os.path.isfile(path):
            return
        words = ["zcat", "--", path]
        try:
            if self.given.page is None and self.given.deck != "-":
                self.unpacker = subprocess.Popen(words, stdin=subprocess.DEVNULL, stdout=subprocess.PIPE)
                self.replaced[None] = "-"
            else:
                self.replaced[None] = os.path.join(self.folder, "library.gds")
                with open(self.replaced[None], "wb") as file:
                    self.test_unpacked(subprocess.run(words, stdin=subprocess.DEVNULL, stdout=file, check=False).returncode)
        except OSError as error:
            raise Fault("file", f"zcat: {error.strerror}: unpack {path} first") from None
        self.names.add(self.replaced[None], path)

    def test_unpacked(self, status):
        """Refuses a library that couldn't be unpacked. A check that ends early ends zcat by a signal, which is no fault."""
        if status not in (0, WARNING, -signal.SIGPIPE):
            raise Fault("file", f"{self.given.file}: it is damaged, so this check doesn't count: zcat ended with status {status}")

    def run(self, known):
        """Runs the program; its exit status. Markers that are known don't count."""
        words = [*self.mpw, "--as-is", "check", *self.given.words(self.replaced)]
        given = self.unpacker.stdout if self.unpacker else None
        status = relayed(words, self.names, given, known and known.see, None if self.left_out is None else self.left_out.hear)
        if self.unpacker:
            self.unpacker.stdout.close()
            unpacked = self.unpacker.wait()
            if status <= 1:
                self.test_unpacked(unpacked)
        if known and status <= 1:
            print("".join(f"mpw: {line}\n" for line in known.lines()), end="", file=sys.stderr)
            return 1 if known.has_others or self.left_out else 0
        return status

    def write_page(self):
        """Writes the page; the exit status of mpw-page."""
        page = [f"--program={self.mpw[0]}"]
        page += [f"{name}={value}" for name, value in (("--deck", self.given.deck), ("--top", self.given.top)) if value is not None]
        library = self.replaced.get(None, self.given.file) or "-"
        if self.left_out:
            library, lines = self.write_rest(library)
            page.append(f"--left-out={lines}")
        words = [sys.executable, os.path.join(HERE, "mpw-page"), *page, "--", library, self.given.page]
        return relayed(words, self.names)

    def write_rest(self, library):
        """Writes the library without the elements that the check left out, and their lines; both files."""
        rest, lines = os.path.join(self.folder, "rest.gds"), os.path.join(self.folder, "left-out.txt")
        with open(library, "rb") as file, open(rest, "wb") as out:
            out.write(self.left_out.without(file.read()))
        with open(lines, "w", encoding="ascii", errors="replace") as out:
            out.writelines(f"{line}\n" for line in self.left_out.lines)
        self.names.add(rest, self.given.file)
        return rest, lines

    def end(self):
        if self.unpacker:
            self.unpacker.kill()
            self.unpacker.wait()


def check(mpw, given):
    """Does all that the words ask for; the exit status."""
    test_words(given)
    known = None if given.known is None else read_file(given.known, Known.of)
    with ExitStack() as stack:
        made = Check(mpw, given, stack.enter_context(tempfile.TemporaryDirectory(prefix="mpw-check-")))
        stack.callback(made.end)
        made.take_deck()
        made.take_library()
        status = made.run(known)
        if given.page is None or status > 1:
            return status
        written = made.write_page()
        return UNFORESEEN if written == 1 else written or status


def main(words):
    start = words.index("check")
    end_cleanly()
    try:
        return check(words[:start], given_of(words[start + 1:]))
    except KeyboardInterrupt:
        return 130
    except (Fault, FileFault) as fault:
        print(f"error: {fault}", file=sys.stderr)
        return getattr(fault, "status", STATUSES["file"])
    except OSError as error:
        if not isinstance(error, BrokenPipeError):
            print(f"error: {error.filename or 'the standard output'}: {error.strerror}", file=sys.stderr)
        # Python would try once more to write what it holds.
        os.dup2(os.open(os.devnull, os.O_WRONLY), sys.stdout.fileno())
        return STATUSES["file"]


if __name__ == "__main__":
    sys.exit(main(sys.argv[1:]))
