"""`mpw trail` and `mpw store check` over files that are stores, damaged ones and none: what is printed, and the exit status. Stores that the program made are
damaged bit by bit, and what `mpw store check` says is compared with what the desk says that opens them. The programs are MPW_AUDITOR and MPW_PROGRAM, else those
that the gate built."""
import os
import random
import shutil
import signal
import sqlite3
import subprocess
import sys
import tempfile
import unittest
from contextlib import closing, suppress

from stored import TABLE, Recorder
from test_serve import DIGEST, LIMIT, MPW, TOP

sys.path.append(os.path.join(os.path.dirname(os.path.abspath(__file__)), "stores"))

from old_store import SCRIPTS  # noqa: E402

AUDITOR = os.environ.get("MPW_AUDITOR", os.path.join(TOP, "crates", "mpw_auditor", "out", "mpw_auditor"))
HEAD = "place,connection,kind,line\n"
NO_DATABASE = "file is not a database that obeys its schema"
UNSEEN = "not noticed: a change that became another valid one, the officer's token, and the loss of a whole log\n"
# A session that leaves nine rows, and a tenth of its end.
LINES = (
    b"open root abc\nactivate officer\nadduser ann abc\naddrole alpha\nassign ann alpha\ngrant read pad alpha\nclose\nopen ann abc\nactivate alpha\n")


class Folder(unittest.TestCase):
    """A folder for stores, in which the program runs."""

    def setUp(self):
        self.folder = tempfile.mkdtemp(prefix="mpw-auditing-")
        self.addCleanup(shutil.rmtree, self.folder)

    def at(self, name):
        return os.path.join(self.folder, name)

    def write(self, name, content):
        with open(self.at(name), "wb") as file:
            file.write(content)

    def store(self, name, rows=None, table=TABLE):
        """A store with these rows; without rows that of a session."""
        if rows is None:
            model = Recorder()
            model.serve(LINES)
            rows = model.rows
        with closing(sqlite3.connect(self.at(name))) as store, store:
            store.execute(table)
            store.executemany("INSERT INTO changes VALUES (?, ?, ?, ?, ?)", rows)
        return rows

    def run_auditor(self, *words, **popen):
        """The status, and what was printed on the standard output and the standard error."""
        how = {"stdin": subprocess.DEVNULL, "stdout": subprocess.PIPE, "stderr": subprocess.PIPE, "timeout": LIMIT, "cwd": self.folder, **popen}
        ended = subprocess.run([AUDITOR, *words], check=False, **how)
        return ended.returncode, (ended.stdout or b"").decode(), (ended.stderr or b"").decode()

    def unsound(self, name, reason):
        """The store isn't sound, and this is the beginning of the reason."""
        status, printed, told = self.run_auditor("store", "check", name)
        self.assertEqual((status, printed, told.count("\n")), (4, "", 1), told)
        self.assertTrue(told.startswith(f"error: the store isn't sound: {reason}"), told)


def listing(rows):
    """What `mpw trail` lists of rows whose lines have no comma and no quote."""
    kinds = {1: "request", 2: "gone", 3: "finished"}
    return HEAD + "".join(f"{place},{connection},{kinds[kind]},{line}\n" for place, connection, kind, line, _ in rows)


def report(rows, frames=0, more=0):
    """What `mpw store check` prints of a sound store."""
    owner = "officer root\n" if rows else ""
    return f"rows {rows}\n{owner}log frames {frames}\nframes after the last commit {more}\n{UNSEEN}"


@unittest.skipUnless(os.access(AUDITOR, os.X_OK), f"{AUDITOR} isn't built")
class Words(Folder):
    def test_a_word_of_other_bytes(self):
        """A word that isn't UTF-8 is a fault of the command line, wherever it is."""
        for words in [b"trail", b"\xff.db"], [b"trail", b"--payload=\xff", b"desk.db"], [b"store", b"check", b"\xc3(.db"], [b"\xff"]:
            self.assertEqual(self.run_auditor(*words), (2, "", "error: an argument is not valid UTF-8\n"), words)

    def test_no_command_line(self):
        """Words of no form are refused, and their fault goes to the standard error."""
        for words in [], ["frob"], ["trail"], ["store"], ["store", "check"], ["trail", "a", "b"], ["trail", "--payload"], ["store", "check", "--payload", "1", "a"]:
            status, printed, told = self.run_auditor(*words)
            self.assertEqual((status, printed), (2, ""), words)
            self.assertTrue(told.startswith("error: "), told)

    def test_help(self):
        """The help goes to the standard output."""
        for words in ["--help"], ["trail", "--help"], ["store", "--help"]:
            status, printed, told = self.run_auditor(*words)
            self.assertEqual((status, told), (0, ""), words)
            self.assertIn("Usage:", printed)


@unittest.skipUnless(os.access(AUDITOR, os.X_OK), f"{AUDITOR} isn't built")
class Files(Folder):
    def audited(self, name, reason):
        """The file has no rows to list and no payload, and isn't sound; each answer gives the reason."""
        told = f"error: the store: {reason}\n"
        for words in ["trail", name], ["trail", "--payload", "1", name]:
            self.assertEqual(self.run_auditor(*words), (3, "", told), words)
        self.assertEqual(self.run_auditor("store", "check", name), (4, "", f"error: the store isn't sound: {reason}\n"))

    def test_no_database(self):
        """A file that is no database can't be listed, with status 3, and isn't sound, with status 4."""
        self.write("text.db", b"This is no database.\n" * 400)
        self.write("short.db", b"SQLite format 3\0")
        self.write("zeros.db", bytes(8192))
        for name in "text.db", "short.db", "zeros.db":
            with self.subTest(name):
                self.audited(name, NO_DATABASE)

    def test_a_page_that_is_damaged(self):
        """A database whose page of rows isn't one any more is reported as a damaged one, with the same status."""
        self.store("desk.db")
        with open(self.at("desk.db"), "r+b") as file:
            file.seek(4096)
            file.write(bytes(4096))
        self.audited("desk.db", "database disk image is malformed")

    def test_another_database(self):
        """A database with another table, and one whose table has other columns, is another database."""
        with closing(sqlite3.connect(self.at("notes.db"))) as other, other:
            other.execute("create table notes(text)")
        self.store("columns.db", [], TABLE.replace(" NOT NULL", "", 1))
        for name in "notes.db", "columns.db":
            with self.subTest(name):
                self.audited(name, "it is another database")

    def test_no_table(self):
        """A database with nothing, and an empty file, has no rows: only the head is listed, and it is sound."""
        with closing(sqlite3.connect(self.at("nothing.db"))) as nothing:
            nothing.execute("vacuum")
        self.write("empty.db", b"")
        for name in "nothing.db", "empty.db":
            with self.subTest(name):
                self.assertEqual(self.run_auditor("trail", name), (0, HEAD, ""))
                self.assertEqual(self.run_auditor("trail", "--payload", "1", name), (3, "", "error: no row 1 has a payload\n"))
                self.assertEqual(self.run_auditor("store", "check", name), (0, report(0), ""))

    def test_no_file(self):
        """What isn't there, or is no regular file, is no store that could be unsound: both commands end with 3."""
        os.mkdir(self.at("folder"))
        for name, reason in ("none.db", "there is no file of that name. "), ("folder", "it is no regular file. "):
            for words in ["trail", name], ["store", "check", name]:
                status, printed, told = self.run_auditor(*words)
                self.assertEqual((status, printed), (3, ""), words)
                self.assertTrue(told.startswith(f"error: the store: {reason}"), told)


@unittest.skipUnless(os.access(AUDITOR, os.X_OK), f"{AUDITOR} isn't built")
class Rows(Folder):
    def test_listing(self):
        rows = self.store("desk.db")
        self.assertEqual(self.run_auditor("trail", "desk.db"), (0, listing(rows), ""))

    def test_a_row_that_is_none(self):
        """The rows before the first that is none are listed, and then its place is reported."""
        rows = self.store("whole.db")
        for place, name, value in (4, "kind", 9), (1, "conn", -1), (7, "line", b"\xff"), (10, "payload", 5), (3, "k", 30):
            with self.subTest(name):
                store = f"{name}.db"
                self.store(store, rows)
                with closing(sqlite3.connect(self.at(store))) as damaged, damaged:
                    damaged.execute(f"update changes set {name} = cast(? as {'text' if name == 'line' else 'integer'}) where k = ?", (value, place))
                reason = f"row {place} is no change that the desk accepts there\n"
                self.assertEqual(self.run_auditor("trail", store), (3, listing(rows[:place - 1]), f"error: the store: {reason}"))
                self.assertEqual(self.run_auditor("trail", "--payload", "1", store), (3, "", f"error: the store: {reason}"))
                self.unsound(store, reason)

    def test_payload(self):
        rows = [*self.store("whole.db"), (11, 1, 1, "deck 6", b"tile 9"), (12, 1, 1, "deck 0", b"")]
        self.store("desk.db", rows)
        self.assertEqual(self.run_auditor("trail", "--payload", "11", "desk.db"), (0, "tile 9", ""))
        self.assertEqual(self.run_auditor("trail", "--payload", "12", "desk.db"), (0, "", ""))
        for place in 1, 13, 2 ** 21:
            self.assertEqual(self.run_auditor("trail", "--payload", str(place), "desk.db"), (3, "", f"error: no row {place} has a payload\n"))

    def test_an_output_that_fails(self):
        """What can't be printed ends with 3."""
        self.store("desk.db", [*self.store("whole.db"), (11, 1, 1, "deck 6", b"tile 9")])
        for words in ["trail", "desk.db"], ["trail", "--payload", "11", "desk.db"], ["store", "check", "whole.db"], ["--help"]:
            with open("/dev/full", "wb") as full:
                self.assertEqual(self.run_auditor(*words, stdout=full), (3, "", "error: the standard output failed\n"), words)


@unittest.skipUnless(os.access(AUDITOR, os.X_OK), f"{AUDITOR} isn't built")
class Desks(Folder):
    def test_a_session(self):
        rows = self.store("desk.db")
        self.assertEqual(self.run_auditor("store", "check", "desk.db"), (0, report(len(rows)), ""))

    def test_a_row_that_the_desk_refuses(self):
        """A row that is a change, but none that the desk accepts there, is named."""
        rows = self.store("whole.db")
        for name, place, line in ("role", 4, "addrole officer"), ("user", 5, "assign bob alpha"), ("token", 8, f"open ann {'0' * 64}"), ("session", 11, "addrole beta"):
            with self.subTest(name):
                changed = [row[:3] + (line,) + row[4:] if row[0] == place else row for row in rows]
                self.store(f"{name}.db", changed if place <= len(rows) else [*rows, (place, 1, 1, line, None)])
                self.unsound(f"{name}.db", f"row {place} is no change that the desk accepts there")

    def test_a_first_row_that_is_no_login(self):
        for name, row in ("role", (1, 1, 1, "addrole alpha", None)), ("end", (1, 1, 2, "", None)), ("run", (1, 0, 3, "1", None)):
            with self.subTest(name):
                self.store(f"{name}.db", [row])
                self.unsound(f"{name}.db", "row 1 is no change that the desk accepts there")

    def test_no_number_is_left(self):
        """A store with the greatest number of a connection can't be gone on from."""
        self.store("desk.db", [(1, 2 ** 32 - 1, 1, f"open root {DIGEST}", None)])
        self.unsound("desk.db", "no number is left for a connection")


@unittest.skipUnless(os.access(AUDITOR, os.X_OK) and os.access(MPW, os.X_OK), f"{AUDITOR} or {MPW} isn't built")
class Damaged(Folder):
    """Stores that the program made."""

    def words(self, name):
        return [MPW, "script", "--officer", "root", "--digest", DIGEST, "--store", self.at(name)]

    def served(self, name, script=b""):
        """What the desk of a store that serves a script says: the status, and the standard error."""
        ended = subprocess.run(self.words(name), input=script, stdout=subprocess.PIPE, stderr=subprocess.PIPE, timeout=LIMIT, check=False)
        return ended.returncode, ended.stderr.decode()

    def killed(self, name, lines):
        """The log of a store whose desk was killed after it accepted these lines."""
        with subprocess.Popen(self.words(name), stdin=subprocess.PIPE, stdout=subprocess.PIPE, stderr=subprocess.DEVNULL) as process:
            for line in lines:
                process.stdin.write(line)
                process.stdin.flush()
                self.assertEqual(process.stdout.readline(), b"OK 0\n", line)
            process.send_signal(signal.SIGKILL)
        with open(self.at(f"{name}-wal"), "rb") as log:
            return log.read()

    def test_single_bits(self):
        """Of 200 wrong bits in a file with a finished run and its waivers none is passed that the desk refuses, but for the officer's name and token in the first row;
        and none that the desk goes on from is refused."""
        for script in SCRIPTS:
            self.assertEqual(self.served("whole.db", script)[0], 0)
        status, printed, told = self.run_auditor("store", "check", "whole.db")
        self.assertEqual((status, told), (0, ""))
        self.assertIn("\nofficer root\nlog frames 0\n", printed)
        with open(self.at("whole.db"), "rb") as file:
            whole = file.read()
        chance, refused = random.Random(2026), 0
        for bit in chance.sample(range(8 * len(whole)), 200):
            damaged = bytearray(whole)
            damaged[bit // 8] ^= 1 << bit % 8
            self.write("damaged.db", damaged)
            checked, _, why = self.run_auditor("store", "check", "damaged.db")
            opened, told = self.served("damaged.db")
            with self.subTest(bit=bit):
                if "another officer or token" in told:
                    self.assertIn(checked, (0, 4), why)
                else:
                    self.assertEqual((opened, checked), (3, 4) if opened else (0, 0), f"{told!r}, {why!r}")
            refused += opened != 0
            for name in "damaged.db", "damaged.db-wal":
                os.unlink(self.at(name))
        self.assertGreater(refused, 20)

    def test_progress(self):
        """On a terminal it is shown how many tiles of a finished run are checked again, up to all."""
        for script in SCRIPTS:
            self.assertEqual(self.served("whole.db", script)[0], 0)
        try:
            ours, its = os.openpty()
        except OSError:
            self.skipTest("no terminal can be made here")
        with os.fdopen(ours, "rb", 0) as terminal:
            status = self.run_auditor("store", "check", "whole.db", stderr=its)[0]
            os.close(its)
            self.assertEqual(status, 0)
            shown = b""
            with suppress(OSError):  # a terminal that nobody has open any more ends with an error
                while more := terminal.read(4096):
                    shown += more
            self.assertRegex(shown, rb"\rmpw: ([1-9]\d*) of \1 tiles checked\r\n$")

    def test_logs(self):
        """A log that is cut off or has a wrong bit before its last commit is reported. One that was only longer is whole."""
        log = self.killed("desk.db", LINES.splitlines(keepends=True))
        status, printed, told = self.run_auditor("store", "check", "desk.db")
        self.assertEqual((status, told), (0, ""))
        frames = int(printed.split("log frames ")[1].split()[0])
        self.assertEqual(printed, report(9, frames=frames))
        last, chance = 32 + frames * (24 + 4096), random.Random(2026)
        self.assertGreater(len(log), last + 8)
        cuts = [log[:length] for length in (1, 31, 32, 40, 41, 56, 4151, 4152, 4161, last - 1, last, last + 8, *chance.sample(range(1, last), 30))]
        # A frame's first byte of salt is 1, and the mark 0. So one bit of each frame goes unnoticed: the frame is then one of a commit that wasn't finished.
        marks = range(8 * 40, 8 * last, 8 * (24 + 4096))
        flips = []
        for bit in [0, 8 * 16, 8 * 31, *chance.sample([it for it in range(8 * last) if it not in marks], 60)]:
            flips.append(bytearray(log))
            flips[-1][bit // 8] ^= 1 << bit % 8
        for damaged in [*cuts, *flips]:
            self.write("desk.db-wal", damaged)
            with self.subTest(length=len(damaged)):
                status, printed, told = self.run_auditor("store", "check", "desk.db")
                self.assertEqual(status, 4, (printed, told))
                self.assertTrue(told.startswith("error: the store isn't sound: "), told)
        self.write("desk.db-wal", log[:last + 9])
        self.assertEqual(self.run_auditor("store", "check", "desk.db"), (0, report(9, frames=frames), ""))

    def test_frames_that_follow(self):
        """How many frames follow the damage is reported, and the rows before it."""
        log = bytearray(self.killed("desk.db", LINES.splitlines(keepends=True)))
        frames = int(self.run_auditor("store", "check", "desk.db")[1].split("log frames ")[1].split()[0])
        at = 32 + (frames - 3) * (24 + 4096)
        log[at + 1000] ^= 1
        self.write("desk.db-wal", log)
        status, printed, told = self.run_auditor("store", "check", "desk.db")
        self.assertEqual((status, printed), (4, report(6, frames=frames - 3, more=3)))
        self.assertTrue(told.startswith(f"error: the store isn't sound: its log was cut off or is damaged after {frames - 3} frames. 3 further frames "), told)

    def test_a_commit_that_was_not_finished(self):
        """Frames after the mark of the last commit belong to a change whose reply wasn't written. They are counted, and the store is sound."""
        log = bytearray(self.killed("desk.db", LINES.splitlines(keepends=True)))
        frames = int(self.run_auditor("store", "check", "desk.db")[1].split("log frames ")[1].split()[0])
        log[32 + (frames - 1) * (24 + 4096) + 8] = 0
        self.write("desk.db-wal", log)
        self.assertEqual(self.run_auditor("store", "check", "desk.db"), (0, report(8, frames=frames - 1, more=1), ""))

    def test_a_log_that_is_emptied(self):
        """A log that is being emptied begins with 0. Its frames are in the file then."""
        log = bytearray(self.killed("desk.db", LINES.splitlines(keepends=True)))
        self.assertEqual(self.served("desk.db")[0], 0)
        log[0] = 0
        self.write("desk.db-wal", log)
        self.assertEqual(self.run_auditor("store", "check", "desk.db"), (0, report(10), ""))
        self.write("desk.db-wal", bytes(len(log)))
        self.assertEqual(self.run_auditor("store", "check", "desk.db")[0], 4)

    def test_a_desk_that_runs(self):
        """While a desk has the store neither command reads it, and nothing is written."""
        with subprocess.Popen(self.words("desk.db"), stdin=subprocess.PIPE, stdout=subprocess.PIPE, stderr=subprocess.DEVNULL) as process:
            process.stdin.write(b"open root abc\n")
            process.stdin.flush()
            self.assertEqual(process.stdout.readline(), b"OK 0\n")
            for words in ["trail", "desk.db"], ["store", "check", "desk.db"]:
                self.assertEqual(self.run_auditor(*words), (3, "", "error: the store: database is locked\n"))
            process.stdin.close()
        self.assertEqual(self.run_auditor("store", "check", "desk.db"), (0, report(2), ""))
