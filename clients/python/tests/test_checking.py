"""What `mpw check` takes besides its program: how its words are read, and what becomes of --known, --page, a compressed library and a deck
with comments. The program is a stand-in."""
import gzip
import os
import re
import shutil
import signal
import subprocess
import sys
import tempfile
import time
import unittest

from asked import ASK
from mpw_given import given_of
from stand_in import TOP

sys.path.append(os.path.join(TOP, "scripts"))

import option_tables  # noqa: E402

PROGRAM = os.path.join(TOP, "crates", "mpw_firm", "out", "mpw_firm")
CLIENT = os.path.dirname(ASK)
CHECKING, WORDS = os.path.join(CLIENT, "mpw_checking.py"), os.path.join(CLIENT, "mpw_checking.sh")
LISTING = "OK 3\nw:V:0:0:50:0:600 TOP\ns:V:0:50:90:0:600 TOP\ns:H:0:1:2:3:4 A\n"
# It prints its words, its deck and its library, and ends as the environment says.
STAND_IN = """#!/bin/sh
case $1 in script) echo "$*" >&2; exit 3 ;; esac
echo "$*" > words
deck= file= before=
for word in "$@"; do
    [ "$before" != --deck ] || deck=$word
    before=$word file=$word
done
cat "$deck" > deck
[ "$file" = - ] && cat > library || cat "$file" > library
echo "$deck" > name
printf '%s' "$LISTING"
[ ! -t 2 ] || printf 'terminal\\r' >&2
[ -z "$LINE" ] || echo "error: $deck: line $LINE: it is wrong" >&2
[ -z "$SLOW" ] || { touch started; exec sleep 60; }
echo "error: $file: short at byte 2: export it again" >&2
exit "${STATUS-1}"
"""
PLAIN, WRITTEN = b"tile 4096\nwidth w 1/0 56\n", b"# A deck.\r\ntile 4096\r\n\r\nwidth w 1/0 0.056um # as before\r\n"


class Given(unittest.TestCase):
    def test_forms(self):
        expected = "--deck d --limit 3 --top=T --strict f".split()
        for words in "--deck d --page p --limit 3 --top=T --known=k --strict f", "--deck d --known k --limit 3 --page=p --top=T --strict f":
            given = given_of(words.split())
            self.assertEqual((given.words({}), given.page, given.known, given.deck, given.top, given.file), (expected, "p", "k", "d", "T", "f"))

    def test_values_that_look_like_options(self):
        given = given_of("--deck --page --top T - --page x".split())
        self.assertEqual((given.words({}), given.page, given.deck, given.file), ("--deck --page --top T -".split(), "x", "--page", "-"))

    def test_no_value(self):
        """The program refuses an option without its value."""
        for word in "--page", "--known":
            self.assertEqual(given_of(["f", word]).words({}), ["f", word])

    def test_replaced(self):
        given = given_of("--deck=a --deck b f -- g".split())
        self.assertEqual(given.words({"--deck": "new", None: "-"}), "--deck=a --deck new f -- -".split())


class Checking(unittest.TestCase):
    def setUp(self):
        self.folder = tempfile.mkdtemp(prefix="mpw-checking-")
        self.addCleanup(shutil.rmtree, self.folder)
        self.write("mpw", STAND_IN)
        os.chmod(self.file("mpw"), 0o755)
        self.write("plain.deck", PLAIN)
        self.write("written.deck", WRITTEN)
        self.write("f.gds", b"a library")
        self.write("f.gds.gz", gzip.compress(b"a library"))

    def file(self, name):
        return os.path.join(self.folder, name)

    def write(self, name, data):
        with open(self.file(name), "wb") as file:
            file.write(data if isinstance(data, bytes) else data.encode())

    def read(self, name):
        with open(self.file(name), "rb") as file:
            return file.read()

    def start(self, *words, **more):
        variables = {name: str(value) for name, value in more.items() if name.isupper()}
        how = {name: value for name, value in more.items() if not name.isupper()}
        how = {"stdout": subprocess.PIPE, "stderr": subprocess.PIPE, "stdin": subprocess.DEVNULL, **how}
        return subprocess.Popen([sys.executable, "-SB", CHECKING, self.file("mpw"), "check", *words], cwd=self.folder,
                                env={**os.environ, "LISTING": LISTING, "TMPDIR": self.folder, **variables}, **how)

    def check(self, *words, **more):
        """The status of a check, what it printed, and what it printed on the standard error."""
        with self.start(*words, **more) as process:
            printed, told = process.communicate(timeout=60)
        self.assertEqual([name for name in os.listdir(self.folder) if name.startswith("mpw-")], [])
        return process.returncode, printed.decode(), told.decode()

    def test_plain_deck(self):
        """The program gets the words as they are."""
        self.assertEqual(self.check("--deck", "plain.deck", "--strict", "f.gds"), (1, LISTING, "error: f.gds: short at byte 2: export it again\n"))
        self.assertEqual(self.read("words"), b"--as-is check --deck plain.deck --strict f.gds\n")

    def test_written_deck(self):
        """The program gets the plain deck, and a fault has the name and the line of the deck that was given."""
        status, printed, told = self.check("--deck", "written.deck", "f.gds", LINE=2, STATUS=4)
        self.assertEqual((status, printed, self.read("deck")), (4, LISTING, PLAIN))
        self.assertEqual(told, "error: written.deck: line 4: it is wrong\nerror: f.gds: short at byte 2: export it again\n")

    def test_deck_that_cannot_be_made_plain(self):
        self.write("half.deck", "tile 4096\nwidth w 1/0 0.5nm\n")
        status, printed, told = self.check("--deck", "half.deck", "f.gds")
        self.assertEqual((status, printed), (4, ""))
        self.assertRegex(told, "^error: half.deck: line 2: 0.5nm is no whole number of nm")
        self.assertFalse(os.path.exists(self.file("words")))

    def test_compressed(self):
        for words in ["f.gds.gz"], ["--", "f.gds.gz"]:
            status, _, told = self.check("--deck", "written.deck", *words)
            self.assertEqual((status, told), (1, "error: f.gds.gz: short at byte 2: export it again\n"))
            self.assertEqual((self.read("library"), self.read("deck")), (b"a library", PLAIN))

    def test_compressed_beside_a_deck_on_the_standard_input(self):
        status, _, told = self.check("--deck", "-", "f.gds.gz", stdin=subprocess.DEVNULL)
        self.assertEqual((status, told.count("f.gds.gz"), self.read("library")), (1, 1, b"a library"))

    def test_damaged(self):
        """A check of a damaged file doesn't count."""
        self.write("f.gds.gz", gzip.compress(b"a library")[:-8])
        status, _, told = self.check("--deck", "plain.deck", "f.gds.gz", STATUS=0)
        self.assertEqual((status, "f.gds.gz: it is damaged" in told), (3, True), told)

    def test_known(self):
        for text, status, expected in (
                ("w:V:0:0:50:0:600 TOP\n", 1, ["3 markers: 1 known, 2 new; known and gone: 0", "new: s:V:0:50:90:0:600 TOP", "new: s:H:0:1:2:3:4 A"]),
                (LISTING, 0, ["3 markers: 3 known, 0 new; known and gone: 0"]),
                ("# Accepted.\nsign gone:V:0:0:50:0:600\n" + LISTING, 0, ["3 markers: 3 known, 0 new; known and gone: 1", "gone: gone:V:0:0:50:0:600"]),
                ("", 1, ["3 markers: 0 known, 3 new; known and gone: 0", *(f"new: {line}" for line in LISTING.splitlines()[1:])])):
            self.write("known.txt", text)
            found = self.check("--known", "known.txt", "--deck", "plain.deck", "f.gds")
            told = [f"mpw: {line}" for line in expected]
            self.assertEqual((found[0], found[1], found[2].splitlines()[1:]), (status, LISTING, told))

    def test_known_of_a_unit_below_1_nm(self):
        listing = "OK 2\nw:V:0:-0.5:12.5:0:150 TOP\ns:V:0:12.5:22.5:0:150 TOP\n"
        self.write("known.txt", "w:V:0:-0.5:12.5:0:150 TOP\n")
        found = self.check("--known", "known.txt", "--deck", "plain.deck", "f.gds", LISTING=listing)
        self.assertEqual(found[:2], (1, listing))
        self.assertEqual(found[2].splitlines()[1:], ["mpw: 2 markers: 1 known, 1 new; known and gone: 0", "mpw: new: s:V:0:12.5:22.5:0:150 TOP"])
        for word in "12.50", "-0", ".5", "1.", "0.1234567891":
            self.write("known.txt", f"w:V:0:{word}:13:0:150 TOP\n")
            self.assertEqual(self.check("--known", "known.txt", "--deck", "plain.deck", "f.gds")[0], 3, word)

    def test_known_of_many(self):
        """The first new markers are named, and the others counted."""
        self.write("known.txt", "")
        lines = [f"w:V:0:0:50:{n}:600 TOP" for n in range(25)]
        told = self.check("--known", "known.txt", "--deck", "plain.deck", "f.gds", LISTING="\n".join(["OK 25", *lines, ""]))[2].splitlines()
        self.assertEqual(told[1:], ["mpw: 25 markers: 0 known, 25 new; known and gone: 0", *(f"mpw: new: {it}" for it in lines[:20]), "mpw: and 5 more new ones"])

    def test_known_without_a_check(self):
        """A check that fails compares nothing."""
        self.write("known.txt", LISTING)
        status, _, told = self.check("--known", "known.txt", "--deck", "plain.deck", "f.gds", STATUS=4)
        self.assertEqual((status, "known" in told), (4, False))

    def test_known_of_a_part(self):
        self.write("known.txt", LISTING)
        for words in ["--summary"], ["--limit", "3"], ["--tiles=1/2"]:
            status, printed, told = self.check("--known", "known.txt", *words, "--deck", "plain.deck", "f.gds")
            self.assertEqual((status, printed, told), (2, "", f"error: --known needs the whole listing: leave out {words[0].partition('=')[0]}\n"))

    def test_known_that_is_none(self):
        self.write("known.txt", "no key\n")
        for name, told in ("known.txt", "error: known.txt: line 1: "), ("none.txt", "error: none.txt: No such file or directory"):
            found = self.check("--known", name, "--deck", "plain.deck", "f.gds")
            self.assertEqual((found[0], found[1], found[2].startswith(told)), (3, "", True), found)

    def test_outputs_over_inputs(self):
        """Refused before anything is printed."""
        self.write("known.txt", "")
        os.symlink("f.gds", self.file("link.gds"))
        for output in "written.deck", "f.gds", "link.gds", "known.txt":
            for name in "--report", "--page", "--picture":
                found = self.check("--known", "known.txt", "--deck", "written.deck", name, output, "f.gds")
                self.assertEqual((found[0], found[1], "isn't written over" in found[2]), (2, "", True))
        self.assertEqual(self.check("--deck", "plain.deck", "--page", "new", "--report", "./new", "f.gds")[0], 2)

    def test_page(self):
        """The check runs first, and a page that can't be written has its own status; a compressed library is unpacked for it."""
        for name in "f.gds", "f.gds.gz":
            status, printed, told = self.check("--deck", "plain.deck", "--top", "T", "--page", "p.html", name)
            self.assertEqual((status, printed), (3, LISTING))
            self.assertIn(f"error: {name}: ", told)
            self.assertIn("script --officer check", told)
            self.assertEqual(self.read("library"), b"a library")
        self.assertEqual(self.check("--deck", "plain.deck", "--top", "T", "--page", "p.html", "f.gds", STATUS=4)[0], 4)

    def test_terminal(self):
        """The program sees a terminal if there is one, and what it prints there goes on at once."""
        try:
            ours, its = os.openpty()
        except OSError:
            self.skipTest("no terminal can be made here")
        with self.start("--deck", "written.deck", "f.gds", stderr=its) as process:
            os.close(its)
            told = b""
            try:
                while b"again" not in told:
                    told += os.read(ours, 4096)
            finally:
                os.close(ours)
                process.communicate(timeout=60)
        self.assertIn(b"terminal\r", told)

    def test_stopped(self):
        """Ended by a signal, it ends the program and removes its files."""
        for number in signal.SIGTERM, signal.SIGHUP:
            with self.start("--deck", "written.deck", "f.gds.gz", SLOW=1) as process:
                while not os.path.exists(self.file("started")):
                    time.sleep(0.01)
                process.send_signal(number)
                process.communicate(timeout=60)
            self.assertEqual(process.returncode, 128 + number)
            self.assertEqual([name for name in os.listdir(self.folder) if name.startswith("mpw-")], [])
            os.remove(self.file("started"))

    def test_faults_of_its_own(self):
        """The status is never that of markers if the client fails: without the program, without its modules, or on a full device."""
        self.write("known.txt", "")
        words = "--deck", "written.deck", "f.gds"
        with open("/dev/full", "wb") as full, self.start("--known=known.txt", *words, stdout=full) as process:
            told = process.communicate(timeout=60)[1].decode()
        self.assertEqual((process.returncode, told.splitlines()[-1]), (3, "error: the standard output: No space left on device"))
        os.remove(self.file("mpw"))
        status, printed, told = self.check(*words)
        self.assertEqual((status, printed), (3, ""), told)
        shutil.copy(CHECKING, self.file("alone.py"))
        ended = subprocess.run([sys.executable, "-SB", self.file("alone.py"), "mpw", "check", *words], stdout=subprocess.PIPE, stderr=subprocess.PIPE, timeout=60)
        self.assertEqual((ended.returncode, ended.stdout), (70, b""))
        self.assertIn(b"mpw_desk", ended.stderr)

    def test_closed_output(self):
        self.write("known.txt", "")
        ours, its = os.pipe()
        os.close(ours)
        try:
            self.assertEqual(self.start("--known", "known.txt", "--deck", "plain.deck", "f.gds", stdout=its, stderr=subprocess.DEVNULL,
                                        LISTING="OK 9\n" + "x:V:0:1:2:3:4 A\n" * 999).wait(60), 3)
        finally:
            os.close(its)


@unittest.skipUnless(os.access(PROGRAM, os.X_OK), f"{PROGRAM} isn't built")
class Program(unittest.TestCase):
    """The program itself, by ./mpw."""

    def check(self, folder, deck, *words):
        with open(os.path.join(folder, "a.deck"), "wb") as file:
            file.write(deck)
        with open(os.path.join(TOP, "examples", "two-bars.gds"), "rb") as file, gzip.open(os.path.join(folder, "a.gds.gz"), "wb") as packed:
            shutil.copyfileobj(file, packed)
        ended = subprocess.run([os.path.join(TOP, "mpw"), "check", "--deck", "a.deck", "--top", "TOP", *words, "a.gds.gz"], cwd=folder,
                               stdin=subprocess.DEVNULL, stdout=subprocess.PIPE, stderr=subprocess.PIPE, timeout=600)
        return ended.returncode, ended.stdout.decode(), ended.stderr.decode()

    def test_all_at_once(self):
        deck = b"# Bars.\r\ntile 0.256um\r\n\r\nwidth w 1/0 56nm\r\nspace s 1/0 0.051um # more than 50\r\n"
        with tempfile.TemporaryDirectory() as folder:
            status, listing, _ = self.check(folder, deck)
            self.assertEqual((status, listing), (1, "OK 2\nw:V:0:0:50:0:600 TOP\ns:V:0:50:90:0:600 TOP\n"))
            with open(os.path.join(folder, "known"), "w", encoding="ascii") as file:
                file.write(listing)
            status, printed, told = self.check(folder, deck, "--known", "known", "--page", "a.html")
            self.assertEqual((status, printed, os.path.exists(os.path.join(folder, "a.html"))), (0, listing, True), told)
            status, printed, told = self.check(folder, deck + b"nonsense\n")
            self.assertEqual((status, printed), (4, ""))
            self.assertIn("error: a.deck: line 6: word: ", told)


@unittest.skipUnless(shutil.which("bash"), "bash isn't installed")
class Asked(unittest.TestCase):
    """Which words and decks lead to the client at all: nothing else may cost the start of Python."""

    def asks(self, *words):
        script = '. "$1"; shift; if asks_client "$@"; then echo yes; else echo no; fi'
        return subprocess.run(["bash", "-euo", "pipefail", "-c", script, "bash", WORDS, *words], stdout=subprocess.PIPE, timeout=60).stdout == b"yes\n"

    def test_words(self):
        for words in ["--known", "f"], ["--known=f"], ["--page", "p"], ["--page=p"], ["f.gds.gz"]:
            self.assertTrue(self.asks("check", "--top", "T", *words), words)
        for words in [], ["f.gds"], ["--deck", "-"], ["--deck", "/dev/null"], ["--deck"]:
            self.assertFalse(self.asks("check", *words), words)

    def test_leftovers(self):
        """Half files go if their process is gone, and nothing else goes. A link to no file is refused."""
        with subprocess.Popen(["true"]) as process:
            process.wait(60)
        gone, here = process.pid, os.getpid()
        with tempfile.TemporaryDirectory() as folder:
            os.symlink("a", os.path.join(folder, "link"))
            os.symlink("nowhere", os.path.join(folder, "dangling"))
            names = [f"{name}.{number}.new" for name in ("a", "b b", "c") for number in (gone, here, "x", "")] + ["a"]
            for words, left in (["--report", "link", "--picture=b b"], {f"a.{gone}.new", f"b b.{gone}.new"}), (["--report", "none"], set()), ([], set()):
                for name in names:
                    open(os.path.join(folder, name), "w", encoding="ascii").close()
                subprocess.run(["bash", "-euo", "pipefail", "-c", '. "$1"; shift; look_at_outputs check "$@"', "bash", WORDS, *words], cwd=folder, check=True)
                self.assertEqual(set(names) - set(os.listdir(folder)), left)
            for words in ["--report", "dangling"], ["--picture=dangling"]:
                ended = subprocess.run(["bash", "-c", '. "$1"; shift; look_at_outputs check "$@" || exit', "bash", WORDS, *words], cwd=folder,
                                       stderr=subprocess.PIPE)
                self.assertEqual((ended.returncode, ended.stderr[:17]), (3, b"error: dangling: "))

    def test_help(self):
        """It has the options that the reference lists."""
        told = subprocess.run(["bash", "-c", '. "$1"; client_help', "bash", WORDS], stdout=subprocess.PIPE, timeout=60).stdout.decode()
        for form, text in option_tables.CLIENTS_OF_CHECK:
            name, value = form.split(" ")
            self.assertRegex(told, f"(?m)^ +{name} <{value}> +{re.escape(text)}$")

    def test_decks(self):
        plain = "tile 4096\nwidth w 1/0 56\n", "tile 4096\nspace a#b 1/0 56", "tile 4096\nwidth nm 1/0 56\nwidth 5nm: 1/0 5\n", ""
        written = WRITTEN.decode(), "#\ntile 1\n", "tile 1um\n", "tile 1\nwidth w 1/0 5nm", "tile 1\n\nwidth w 1/0 5\n", "tile 1\r\n", "tile 1\t\n", " \t# a\ntile 1\n"
        with tempfile.TemporaryDirectory() as folder:
            path = os.path.join(folder, "a.deck")
            for texts, expected in (plain, False), (written, True):
                for text in texts:
                    with open(path, "wb") as file:
                        file.write(text.encode())
                    for words in ["--deck", path], [f"--deck={path}"]:
                        self.assertEqual(self.asks("check", *words, "f.gds"), expected, text)


if __name__ == "__main__":
    unittest.main()
