"""What becomes of a check's outputs and of its inputs: no output is written over an input or over another output, and a file that an
output is for is replaced whole or not at all. Then what is printed of a check that looks at nothing, and of files that never end. Each case
runs the program in a folder of its own and gives what differs from what is expected, which is written here by hand.
"""
import os
import resource
import shutil
import signal
import subprocess
import tempfile

HERE = os.path.dirname(os.path.abspath(__file__))
MPW = os.path.join(os.path.dirname(HERE), "mpw")
CHECK = ["check", "--deck", "bars.deck", "--top", "TOP"]
LISTING = b"OK 2\nw:V:0:0:50:0:600 TOP\ns:V:0:50:90:0:600 TOP\n"
OLD = b"what was there\n"
NO_SPACE = "no space left: free some, or write to another disk"


class Folder:
    """A folder with the library and the deck of the first example."""

    def __init__(self):
        self.path = tempfile.mkdtemp(prefix="mpw-outputs-")
        for name in ("two-bars.gds", "bars.deck"):
            shutil.copy(os.path.join(HERE, name), self.path)
        os.mkdir(self.file("below"))

    def __enter__(self):
        return self

    def __exit__(self, *_):
        shutil.rmtree(self.path)

    def file(self, name):
        return os.path.join(self.path, name)

    def read(self, name):
        with open(self.file(name), "rb") as file:
            return file.read()

    def write(self, name, text):
        with open(self.file(name), "wb") as file:
            file.write(text)

    def run(self, *words, output=subprocess.PIPE, before=None):
        """The status, what was printed, and the lines of the standard error."""
        ended = subprocess.run([MPW, *words], cwd=self.path, stdin=subprocess.DEVNULL, stdout=output, stderr=subprocess.PIPE, preexec_fn=before)
        return ended.returncode, ended.stdout, ended.stderr.decode().splitlines()

    def shell(self, line):
        """The same of a line of a shell."""
        ended = subprocess.run(["sh", "-c", line], cwd=self.path, stdin=subprocess.DEVNULL, stdout=subprocess.PIPE, stderr=subprocess.PIPE)
        return ended.returncode, ended.stdout, ended.stderr.decode().splitlines()

    def names(self):
        return sorted(os.listdir(self.path))


def differing(found, expected):
    """Of values, each with its name: those that aren't what they are expected to be."""
    return [f"{name}: {found.get(name)!r}, expected {value!r}" for name, value in expected.items() if found.get(name) != value]


def is_refused(what, name, over, other, words, make=None):
    """The command is refused with status 2 and a sentence that names both, and each file is as it was."""
    with Folder() as folder:
        if make:
            make(folder)
        before = {name: folder.read(name) for name in ("two-bars.gds", "bars.deck")}
        status, printed, told = folder.run(*words)
        found = {"status": status, "printed": printed, "told": told, **{name: folder.read(name) for name in before}}
        sentence = f"error: {what} can't be written over {over}: {name} and {other} are one file"
        return differing(found, {"status": 2, "printed": b"", "told": [sentence], **before})


def over_library(name, make=None):
    return is_refused("the report", name, "the library", "two-bars.gds", [*CHECK, "--report", name, "two-bars.gds"], make)


def by_symbolic_link():
    return over_library("link", lambda folder: os.symlink("two-bars.gds", folder.file("link")))


def by_hard_link():
    return over_library("link", lambda folder: os.link(folder.file("two-bars.gds"), folder.file("link")))


def by_path():
    return over_library("below/../two-bars.gds")


def by_folder():
    return over_library("./two-bars.gds")


def over_deck():
    words = [*CHECK, "--picture", "./bars.deck", "two-bars.gds"]
    return is_refused("the picture", "./bars.deck", "the deck", "bars.deck", words)


def over_report():
    words = [*CHECK, "--report", "one", "--picture", "below/../one", "two-bars.gds"]
    return is_refused("the picture", "below/../one", "the report", "one", words)


def over_part():
    with Folder() as folder:
        _, part, _ = folder.run(*CHECK, "--tiles", "1/1", "two-bars.gds")
        folder.write("part", part)
        status, printed, told = folder.run("stitch", "--report", "./part", "part")
        found = {"status": status, "printed": printed, "told": told, "part": folder.read("part")}
        sentence = "error: the report can't be written over a part: ./part and part are one file"
        return differing(found, {"status": 2, "printed": b"", "told": [sentence], "part": part})


def over_listing():
    with Folder() as folder:
        with open(folder.file("out"), "wb") as output:
            status, _, told = folder.run(*CHECK, "--report", "out", "two-bars.gds", output=output)
        sentence = "error: the report can't be written over what is printed: out and /dev/stdout are one file"
        found = {"status": status, "told": told, "out": folder.read("out")}
        return differing(found, {"status": 2, "told": [sentence], "out": b""})


def is_link_to_nothing():
    """A link whose file isn't there is refused, and stays."""
    with Folder() as folder:
        os.symlink("absent", folder.file("link"))
        status, _, told = folder.run(*CHECK, "--report", "link", "two-bars.gds")
        found = {"status": status, "told": told[-1], "link": os.readlink(folder.file("link")), "names": folder.names()}
        sentence = "error: link: it is a link to a file that isn't there: name another output"
        return differing(found, {"status": 3, "told": sentence, "link": "absent", "names": ["bars.deck", "below", "link", "two-bars.gds"]})


def is_replaced():
    """The file that a link leads to is replaced, with its permissions, and the link stays; nothing else is left."""
    with Folder() as folder:
        folder.write("report", OLD)
        os.chmod(folder.file("report"), 0o640)
        os.symlink("report", folder.file("link"))
        status, printed, _ = folder.run(*CHECK, "--report", "link", "two-bars.gds")
        found = {
            "status": status,
            "printed": printed,
            "link": os.readlink(folder.file("link")),
            "mode": oct(os.stat(folder.file("report")).st_mode & 0o777),
            "begins": folder.read("report")[:5],
            "names": folder.names(),
        }
        names = ["bars.deck", "below", "link", "report", "two-bars.gds"]
        wanted = {"status": 1, "printed": LISTING, "link": "report", "mode": "0o640", "begins": b"<?xml", "names": names}
        return differing(found, wanted)


def limited(ignored):
    """No file may have more than 100 bytes; a process that writes more is ended, or its write fails."""
    if ignored:
        signal.signal(signal.SIGXFSZ, signal.SIG_IGN)
    resource.setrlimit(resource.RLIMIT_FSIZE, (100, 100))


def is_full():
    """Where a report can't be written whole, the old one stays, and no part of the new one."""
    with Folder() as folder:
        folder.write("report", OLD)
        status, printed, told = folder.run(*CHECK, "--report", "report", "two-bars.gds", before=lambda: limited(True))
        found = {"status": status, "printed": printed, "told": told[1:], "report": folder.read("report"), "names": folder.names()}
        sentence = "error: report: can't be written: its device failed"
        names = ["bars.deck", "below", "report", "two-bars.gds"]
        return differing(found, {"status": 3, "printed": LISTING, "told": [sentence], "report": OLD, "names": names})


def is_killed():
    """A process that is ended in the midst of a report leaves the old one as it was."""
    with Folder() as folder:
        folder.write("report", OLD)
        status, printed, _ = folder.run(*CHECK, "--report", "report", "two-bars.gds", before=lambda: limited(False))
        found = {"status": status, "printed": printed, "report": folder.read("report")}
        return differing(found, {"status": -signal.SIGXFSZ, "printed": LISTING, "report": OLD})


def has_failed(option):
    """A full device is a fault, and the output is never done."""
    with Folder() as folder:
        status, printed, told = folder.run(*CHECK, option, "/dev/full", "two-bars.gds")
        sentence = f"error: /dev/full: can't be written: {NO_SPACE}"
        found = {"status": status, "printed": printed, "told": told[1:]}
        return differing(found, {"status": 3, "printed": LISTING, "told": [sentence]})


def has_failed_to_print(*words):
    with Folder() as folder:
        with open("/dev/full", "wb") as output:
            status, _, told = folder.run(*CHECK, *words, "two-bars.gds", output=output)
        sentence = f"error: the standard output can't be written: {NO_SPACE}"
        return differing({"status": status, "told": told[1:]}, {"status": 3, "told": [sentence]})


def cannot_be(words, sentence):
    with Folder() as folder:
        status, _, told = folder.run(*words)
        return differing({"status": status, "told": told[-1:]}, {"status": 3, "told": [sentence]})


def is_not_there():
    sentence = "error: none.gds: can't be read: No such file or directory (os error 2)"
    return cannot_be([*CHECK, "none.gds"], sentence)


def has_no_folder():
    sentence = "error: none/report: can't be written: No such file or directory (os error 2)"
    return cannot_be([*CHECK, "--report", "none/report", "two-bars.gds"], sentence)


UNNAMED = "note: no rule names layer 1/0, which has 2 shapes"
IDLE = "note: rule o looks at nothing: layer 2/0 has no shapes"
EMPTY = "note: the deck has no rules, so nothing is looked at"
STRICT = (
    "error: two-bars.gds: TOP: a rule looks at nothing, or there is none, as the notes say: --strict asks for shapes on each layer of each rule"
)


def looks(deck, strict, status, printed, told):
    """What is printed of a deck, but for the summary, and that a report is written just if the check is done."""
    with Folder() as folder:
        folder.write("bars.deck", deck)
        folder.write("report", OLD)
        words = ["--strict"] if strict else []
        ended = folder.run(*CHECK, *words, "--report", "report", "two-bars.gds")
        lines = [line for line in ended[2] if " tiles, " not in line and not line.startswith("times: ")]
        found = {"status": ended[0], "printed": ended[1], "told": lines, "kept": folder.read("report") == OLD}
        return differing(found, {"status": status, "printed": printed, "told": told, "kept": status == 4})


def is_covered(side, status, told, *words):
    """The pad ring by tiles of that side: its outermost shapes, the guard ring, are 3000 within the die of 400000. 64 tiles of 6157 cover 394000
    and the edge after them each way, and of 6156 it takes 65."""
    with Folder() as folder:
        folder.write("bars.deck", f"tile {side}\nspace s 1/0 51\n".encode())
        ended = folder.run(*CHECK, *words, os.path.join(HERE, "pad-ring.gds"))
        lines = [line.replace(HERE + "/", "") for line in ended[2] if line.startswith("error")]
        return differing({"status": ended[0], "told": lines}, {"status": status, "told": told})


def has_tops():
    """If the library has no structure of that name, those that nothing places are listed."""
    with Folder() as folder:
        status, printed, told = folder.run("check", "--deck", "bars.deck", "--top", "NONE", "two-bars.gds")
        lines = [
            "note: two-bars.gds: structures that nothing places: TOP",
            "error: two-bars.gds: NONE: notop: the library has no structure of that name: name another with --top",
        ]
        return differing({"status": status, "printed": printed, "told": told}, {"status": 4, "printed": b"", "told": lines})


def is_endless(words, status, begin):
    """A file that never ends is refused by what it begins with, in little memory and time."""
    with Folder() as folder:
        def before():
            resource.setrlimit(resource.RLIMIT_AS, (1 << 30, 1 << 30))
            resource.setrlimit(resource.RLIMIT_CPU, (10, 10))

        status_of, printed, told = folder.run(*words, before=before)
        found = {"status": status_of, "printed": printed, "begin": [line[: len(begin)] for line in told]}
        return differing(found, {"status": status, "printed": b"", "begin": [begin]})


def goes_on(length, sentence):
    """A library, or a front of it, after which zeros follow without end, through a pipe."""
    with Folder() as folder:
        folder.write("front", folder.read("two-bars.gds")[:length])
        words = " ".join([MPW, *CHECK, "-"])
        status, printed, told = folder.shell(f"ulimit -v 1500000; cat front /dev/zero | {words}")
        return differing({"status": status, "printed": printed, "told": told}, {"status": 4, "printed": b"", "told": [sentence]})


def is_great():
    """A library that is too great for the desk is checked."""
    with Folder() as folder:
        folder.write("two-bars.gds", folder.read("two-bars.gds") + bytes(1 << 24))
        size = os.path.getsize(folder.file("two-bars.gds"))
        status, printed, told = folder.run(*CHECK, "two-bars.gds")
        note = f"note: two-bars.gds has {size} bytes, and the desk takes no library of more than 16777216"
        return differing({"status": status, "printed": printed, "told": told[:1]}, {"status": 1, "printed": LISTING, "told": [note]})


def makefile():
    """That of docs/checking.md."""
    with open(os.path.join(os.path.dirname(HERE), "docs", "checking.md"), encoding="utf-8") as page:
        return page.read().split("```make\n", 1)[1].split("```", 1)[0]


def leaves_nothing():
    """Where the checks or the stitching fail, make leaves no file that it would take for done; where they don't, the markers."""
    if not shutil.which("make"):
        return []
    with Folder() as folder:
        folder.write("Makefile", makefile().replace("--top TOP", "--top TOP").encode())
        for name, file in (("die.gds", "two-bars.gds"), ("die.deck", "bars.deck")):
            shutil.copy(folder.file(file), folder.file(name))
        os.symlink(MPW, folder.file("below/mpw"))
        make = 'PATH="$PWD/below:$PATH" make -s N=2 markers'
        good, deck = folder.shell(make)[0], folder.read("die.deck")
        found = {"good": good, "markers": folder.read("markers")}
        os.remove(folder.file("markers"))
        for name in ("part.1", "part.2"):
            os.remove(folder.file(name))
        folder.write("die.deck", b"width\n")
        bad = folder.shell(make)[0]
        left = [name for name in folder.names() if name in ("markers", "part.1", "part.2")]
        folder.write("die.deck", deck)
        folder.write("part.1", b"")
        folder.write("part.2", b"")
        empty = folder.shell(make)[0]
        left += [name for name in folder.names() if name == "markers"]
        found.update({"bad": bad, "left": left, "empty": empty})
        return differing(found, {"good": 0, "markers": LISTING, "bad": 2, "left": [], "empty": 2})


CASES = {
    "a report over the library, by a symbolic link": by_symbolic_link,
    "a report over the library, by a hard link": by_hard_link,
    "a report over the library, by another path": by_path,
    "a report over the library, by its folder": by_folder,
    "a picture over the deck": over_deck,
    "a picture over the report": over_report,
    "a report over a part": over_part,
    "a report over the listing": over_listing,
    "a report in the place of an old one, by a link": is_replaced,
    "a report by a link whose file isn't there": is_link_to_nothing,
    "a report on a full disk": is_full,
    "a report whose process is ended": is_killed,
    "a report on a full device": lambda: has_failed("--report"),
    "a picture on a full device": lambda: has_failed("--picture"),
    "a listing on a full device": lambda: has_failed_to_print(),
    "a part on a full device": lambda: has_failed_to_print("--tiles", "1/1"),
    "a library that isn't there": is_not_there,
    "a report in no folder": has_no_folder,
    "a rule without shapes": lambda: looks(b"tile 256\nwidth o 2/0 56\n", False, 0, b"OK 0\n", [IDLE, UNNAMED]),
    "a rule without shapes, strictly": lambda: looks(b"tile 256\nwidth o 2/0 56\n", True, 4, b"", [IDLE, UNNAMED, STRICT]),
    "a rule with one layer without shapes": lambda: looks(b"tile 256\nenclosing o 1/0 2/0 5\n", False, 0, b"OK 0\n", [IDLE]),
    "a deck without rules": lambda: looks(b"tile 256\n", False, 0, b"OK 0\n", [EMPTY, UNNAMED]),
    "a deck without rules, strictly": lambda: looks(b"tile 256\n", True, 4, b"", [EMPTY, UNNAMED, STRICT]),
    "a layout that is looked at, strictly": lambda: looks(b"tile 256\nwidth w 1/0 50\n", True, 0, b"OK 0\n", []),
    "a structure that isn't there": has_tops,
    "tiles of the least side": lambda: is_covered(6157, 0, []),
    "tiles of a lesser side": lambda: is_covered(6156, 0, []),
    "tiles of a far lesser side": lambda: is_covered(256, 0, []),
    "a part of a layout whose tiles aren't too many": lambda: is_covered(6157, 0, [], "--tiles", "1/4"),
    "a part of a layout whose tiles are too many": lambda: is_covered(6156, 0, [], "--tiles", "1/4"),
    "a library that never ends": lambda: is_endless([*CHECK, "/dev/zero"], 4, "error: /dev/zero: badlength at byte 0: the file doesn't begin as GDSII does"),
    "a deck that never ends": lambda: is_endless(["check", "--deck", "/dev/zero", "--top", "TOP", "two-bars.gds"], 4, "error: /dev/zero: line 1: "),
    "a part that never ends": lambda: is_endless(["stitch", "/dev/zero"], 4, "error: /dev/zero: no part"),
    "zeros without end after a library's head": lambda: goes_on(6, "error: -: badlength at byte 6: a record's length is odd or below 4: the file is damaged, or is no GDSII"),
    "zeros without end after a library": lambda: goes_on(None, "error: -: more than 4294967295 bytes, or without an end: split the library"),
    "a library that is too great for the desk": is_great,
    "a make whose checks fail": leaves_nothing,
}
