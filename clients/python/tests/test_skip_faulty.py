"""`mpw check --skip-faulty`: what is left out, where that is said, and that the markers are those of the file without it."""
import os
import re
import shutil
import struct
import subprocess
import tempfile
import unittest

from mpw_given import given_of
from mpw_left_out import LeftOut, elements_of
from stand_in import TOP

PROGRAM = os.path.join(TOP, "crates", "mpw_firm", "out", "mpw_firm")
DECK = b"tile 256\nwidth w 1/0 56\nspace s 1/0 51\n"
UNIT = bytes.fromhex("3E4189374BC6A7F03944B82FA09B5A54")


def record(kind, data_type=0, data=b""):
    return struct.pack(">HBB", 4 + len(data), kind, data_type) + data


def points(*numbers):
    return record(0x10, 3, struct.pack(f">{len(numbers)}i", *numbers))


def word(kind, text):
    return record(kind, 6, text.encode() + b"\0" * (len(text) % 2))


def layer(number):
    return record(0x0D, 2, struct.pack(">h", number)) + record(0x0E, 2, struct.pack(">h", 0))


def boundary(number, *numbers):
    return record(0x08) + layer(number) + points(*numbers) + record(0x11)


def box(number, left, low, right, high):
    return boundary(number, left, low, right, low, right, high, left, high, left, low)


def path(number, width, ends, *numbers):
    return record(0x09) + layer(number) + record(0x21, 2, struct.pack(">h", ends)) + record(0x0F, 3, struct.pack(">i", width)) \
        + points(*numbers) + record(0x11)


def placed(name, x, y, orientation=b""):
    return record(0x0A) + word(0x12, name) + orientation + points(x, y) + record(0x11)


def structure(name, *elements):
    return record(0x05, 2, bytes(24)) + word(0x06, name) + b"".join(elements) + record(0x07)


def library(*structures):
    return record(0x00, 2, b"\0\5") + record(0x01, 2, bytes(24)) + word(0x02, "L") + record(0x03, 5, UNIT) + b"".join(structures) + record(0x04)


GOOD = box(1, 0, 0, 50, 600), box(1, 90, 0, 190, 600)
LISTING = b"OK 2\nw:V:0:0:50:0:600 TOP\ns:V:0:50:90:0:600 TOP\n"
# Elements with a fault of their own, each with its code and what its line has after the structure.
FAULTY = (
    (boundary(63, 0, 0, 100, 100, 0, 200, 0, 0), "notmanhattan", ", layer 63/0, at 0,0"),
    (path(63, 11, 0, 10, 20, 10, 120), "oddwidth", ", layer 63/0, at 10,20"),
    (path(1, 10, 1, 300, 0, 500, 0), "roundpath", ", layer 1/0, at 300,0"),
    (path(1, 10, 0, 700, 0), "pointpath", ", layer 1/0, at 700,0"),
    (placed("LOGO", 5, 6, record(0x1A, 1, b"\0\0") + record(0x1B, 5, bytes.fromhex("4120000000000000"))), "mag", ", at 5,6"),
    (placed("LOGO", 5, 6, record(0x1A, 1, b"\0\0") + record(0x1C, 5, bytes.fromhex("422D000000000000"))), "angle", ", at 5,6"),
)


class Lines(unittest.TestCase):
    def test_lines(self):
        left = LeftOut()
        for line in (b"fault: a: b.gds: notmanhattan at byte 412 in ARM, layer 1/0, at 300,40, in TOP at 20300,40\n", b"fault: -: oddwidth at byte 7\n",
                     b"error: a: short at byte 9: x\n", b"note: a: oddwidth at byte 9\n"):
            left.hear(line)
        self.assertEqual(left.lines, ["notmanhattan at byte 412 in ARM, layer 1/0, at 300,40, in TOP at 20300,40", "oddwidth at byte 7"])
        self.assertEqual(left.bytes, [412, 7])

    def test_without(self):
        """A text goes on to its ENDEL, whatever is in it."""
        text = record(0x0C) + record(0x08) + layer(3) + record(0x11)
        whole = library(structure("TOP", GOOD[0], text, GOOD[1]))
        spans = list(elements_of(whole))
        self.assertEqual([whole[begin:end] for begin, end in spans], [GOOD[0], text, GOOD[1]])
        left = LeftOut()
        left.bytes = [spans[1][0] + 4]
        self.assertEqual(left.without(whole + bytes(99)), library(structure("TOP", *GOOD)) + bytes(99))

    def test_given(self):
        given = given_of("--deck d --skip-faulty --page p f".split())
        self.assertEqual((given.has("--skip-faulty"), given.file), (True, "f"))


@unittest.skipUnless(os.access(PROGRAM, os.X_OK), f"{PROGRAM} isn't built")
class Program(unittest.TestCase):
    def setUp(self):
        self.folder = tempfile.mkdtemp(prefix="mpw-faulty-")
        self.addCleanup(shutil.rmtree, self.folder)
        self.write("deck", DECK)

    def write(self, name, data):
        with open(os.path.join(self.folder, name), "wb") as file:
            file.write(data)

    def read(self, name):
        with open(os.path.join(self.folder, name), "rb") as file:
            return file.read()

    def check(self, text, *words):
        self.write("f.gds", text)
        ended = subprocess.run([PROGRAM, "check", "--deck", "deck", "--top", "TOP", *words, "f.gds"], cwd=self.folder, stdin=subprocess.DEVNULL,
                               stdout=subprocess.PIPE, stderr=subprocess.PIPE, timeout=600)
        lines = ended.stderr.decode().splitlines()
        return ended.returncode, ended.stdout, [line for line in lines if not re.search(r" ms(,|$)|^note: no rule names", line)]

    def left(self, many):
        return f"note: elements left out for their faults: {many}: the desk refuses this file"

    def test_each(self):
        """Each such element refuses the library by itself, and is left out, listed as --faults lists it."""
        for element, code, after in FAULTY:
            with self.subTest(code=code):
                text = library(structure("LOGO", box(9, 0, 0, 8, 8)), structure("TOP", GOOD[0], element, GOOD[1]))
                status, printed, told = self.check(text, "--faults")
                self.assertEqual((status, printed, len(told)), (4, b"", 2))
                self.assertRegex(told[0], rf"^fault: f\.gds: {code} at byte [0-9]+ in TOP{after}$")
                self.assertEqual(self.check(text, "--skip-faulty"), (1, LISTING, [told[0], self.left(1)]))

    def test_all(self):
        """The listing, the report's markers and the picture's shapes are those of the file without these elements."""
        elements = [it for it, _, _ in FAULTY]
        logo, mark = structure("LOGO", box(9, 0, 0, 8, 8)), placed("MARK", 20000, 0)
        text = library(logo, structure("MARK", box(9, 0, 0, 8, 8), elements[0]), structure("TOP", *GOOD, *elements[1:], mark))
        rest = library(logo, structure("MARK", box(9, 0, 0, 8, 8)), structure("TOP", *GOOD, mark))
        _, _, faults = self.check(text, "--faults")
        words = "--report", "r.lyrdb", "--picture", "p.svg"
        found = self.check(text, "--skip-faulty", *words)
        self.assertEqual(found, (1, LISTING, [*faults[:-1], self.left(len(FAULTY))]))
        self.assertTrue(faults[0].endswith(", at 0,0, in TOP at 20000,0"), faults[0])
        report, picture = self.read("r.lyrdb").decode(), self.read("p.svg").decode()
        self.assertEqual(self.check(rest, *words)[:2], (1, LISTING))
        plain_report, plain_picture = self.read("r.lyrdb").decode(), self.read("p.svg").decode()
        self.assertEqual(report.count("<category>'faults of elements'</category>"), len(FAULTY))
        for line in faults[:-1]:
            code, byte, name = re.search(r": (\w+) at byte (\d+) in (\w+)", line).groups()
            self.assertIn(f"<value>text: '{code} at byte {byte} in {name}'</value>", report)
        items = re.compile(r"<item>.*?</item>", re.S)
        self.assertEqual([it for it in items.findall(report) if "faults of elements" not in it], items.findall(plain_report))
        self.assertIn("elements left out for their faults: ", picture)
        self.assertNotIn("left out", plain_picture)
        self.assertEqual(re.findall(r'<path class="l.*', picture), re.findall(r'<path class="l.*', plain_picture))

    def test_no_markers(self):
        """The status is 1 also without markers, and with --summary and --limit."""
        text = library(structure("TOP", box(1, 0, 0, 100, 100), FAULTY[0][0]))
        for words, printed in (((), b"OK 0\n"), (("--summary",), b"w 0\ns 0\nall 0\n"), (("--limit", "1"), b"OK 0\n")):
            status, found, told = self.check(text, "--skip-faulty", *words)
            self.assertEqual((status, found, told[-1]), (1, printed, self.left(1)))

    def test_none(self):
        """Without such elements the option changes nothing."""
        text = library(structure("TOP", *GOOD))
        self.assertEqual(self.check(text, "--skip-faulty"), self.check(text))
        self.assertEqual(self.check(text, "--skip-faulty")[:2], (1, LISTING))

    def test_other_options(self):
        """What another option leaves out isn't listed as faulty."""
        text = library(structure("FAR", FAULTY[0][0]), structure("TOP", *GOOD, FAULTY[1][0], FAULTY[2][0]))
        status, printed, told = self.check(text, "--skip-faulty", "--skip-layers", "63/0", "--skip-unreached")
        self.assertEqual((status, printed, told[-1]), (1, LISTING, self.left(1)))
        self.assertEqual([line.split(" at byte ")[0] for line in told if line.startswith("fault: ")], ["fault: f.gds: roundpath"])

    def test_rest(self):
        """A fault of the file is refused still, with its byte in the file."""
        whole = library(structure("TOP", FAULTY[0][0], *GOOD))
        cut = whole[:-2]
        status, printed, told = self.check(cut, "--skip-faulty")
        self.assertEqual((status, printed), (4, b""))
        self.assertIn(f"error: f.gds: short at byte {len(cut) - 2}: ", told[-1])
        self.assertTrue(told[0].startswith("fault: f.gds: notmanhattan at byte "))

    def test_columns(self):
        status, _, told = self.check(library(structure("TOP", *GOOD)), "--skip-faulty", "--tiles", "1/2")
        self.assertEqual((status, told), (2, ["error: a part is of the whole library: --skip-faulty is for a check of all"]))


if __name__ == "__main__":
    unittest.main()
