"""mpw-backup: what it copies of a store that changes meanwhile, what it refuses, and what it leaves. SQLite stands in for the desk;
test_stored_service.py has the desk itself."""
import io
import os
import shutil
import sqlite3
import subprocess
import sys
import tempfile
import time
import unittest
from contextlib import closing

from stand_in import TOP
from stored import TABLE

import mpw_backup

BACKUP = os.path.join(TOP, "clients", "python", "mpw-backup")
# A check that says how many rows there are, or that the store isn't sound.
CHECK = """#!{python}
import glob, shutil, sqlite3, sys, tempfile
assert sys.argv[1:3] == ["store", "check"]
with tempfile.TemporaryDirectory() as folder:
    for path in glob.glob(sys.argv[3] + "*"):
        shutil.copy(path, folder)
    rows = [it[0] for it in sqlite3.connect(folder + "/desk.db").execute("SELECT k FROM changes ORDER BY k")]
if rows != list(range(1, len(rows) + 1)) or len(rows) == 7:
    print("error: bad rows", file=sys.stderr)
    sys.exit(4)
print("rows", len(rows))
"""
# Adds rows until its input ends. It prints the number of each row after the row was stored.
WRITER = """
import select, sqlite3, sys
store = sqlite3.connect(sys.argv[1], isolation_level=None)
store.execute("PRAGMA wal_autocheckpoint = 100")
row = store.execute("SELECT max(k) FROM changes").fetchone()[0]
while not select.select([sys.stdin], [], [], 0.002)[0]:
    row += 1
    store.execute("INSERT INTO changes VALUES (?, 1, 1, ?, ?)", (row, "addrole r", bytes(row % 9000)))
    print(row, flush=True)
"""


def open_store(path, rows=3):
    """A connection to a store with so many rows, which are all in its log."""
    with closing(sqlite3.connect(path)) as made:
        made.execute("PRAGMA journal_mode = WAL")
        made.execute(TABLE)
    store = sqlite3.connect(path, isolation_level=None)
    store.execute("PRAGMA wal_autocheckpoint = 0")
    for row in range(1, rows + 1):
        add(store, row)
    return store


def add(store, row, size=100):
    store.execute("INSERT INTO changes VALUES (?, 1, 1, 'addrole r', ?)", (row, bytes(size)))


def rows_of(path):
    with closing(sqlite3.connect(path)) as store:
        return [row[0] for row in store.execute("SELECT k FROM changes ORDER BY k")]


class Folder(unittest.TestCase):
    def setUp(self):
        self.folder = tempfile.mkdtemp(prefix="mpw-backup-")
        self.addCleanup(shutil.rmtree, self.folder)
        self.store, self.copies, self.program = self.at("desk.db"), self.at("copies"), self.at("mpw")
        with open(os.open(self.program, os.O_WRONLY | os.O_CREAT, 0o755), "w") as file:
            file.write(CHECK.format(python=sys.executable))

    def at(self, *names):
        return os.path.join(self.folder, *names)

    def run_backup(self, *words, store=None):
        """The status, what was printed, and what was printed on the standard error."""
        words = [sys.executable, "-SB", BACKUP, "--program", self.program, *words, store or self.store, self.copies]
        ran = subprocess.run(words, stdin=subprocess.DEVNULL, stdout=subprocess.PIPE, stderr=subprocess.PIPE, timeout=120, check=False)
        return ran.returncode, ran.stdout.decode(), ran.stderr.decode()

    def names(self):
        return sorted(os.listdir(self.copies)) if os.path.isdir(self.copies) else []


class Logs(Folder):
    """Which bytes of a log are whole changes."""

    def log(self):
        with open(self.store + "-wal", "rb") as file:
            return file.read()

    def committed(self, data):
        return mpw_backup.committed(io.BytesIO(data))

    def test_cut_and_damaged(self):
        with closing(open_store(self.store, 1)) as store:
            first = len(self.log())
            add(store, 2, 9000)
            log = self.log()
        self.assertEqual(self.committed(log), len(log))
        self.assertEqual(self.committed(log[:first]), first)
        for size in (first, first + 1, first + 24, first + 24 + 4096, len(log) - 1):
            self.assertEqual(self.committed(log[:size]), first)
        for size in (0, 31, 32, 33, 56):
            self.assertEqual(self.committed(log[:size]), 0)
        for place, found in ((first + 2, first), (first + 30, first), (len(log) - 1, first), (0, 0), (5, 0), (11, 0), (20, 0), (31, 0)):
            damaged = bytearray(log)
            damaged[place] ^= 1
            self.assertEqual(self.committed(bytes(damaged)), found, place)

    def test_begun_again(self):
        """Frames of an earlier log stay after the new ones, and don't count."""
        with closing(open_store(self.store, 40)) as store:
            old = len(self.log())
            store.execute("PRAGMA wal_checkpoint(RESTART)").fetchall()
            add(store, 41)
            log = self.log()
        self.assertEqual(len(log), old)
        found = self.committed(log)
        self.assertTrue(32 < found < old and (found - 32) % (4096 + 24) == 0)

    def test_the_other_order_of_bytes(self):
        """The sums of a log may take each word from its other end."""
        self.assertEqual(mpw_backup.sums_after(b"\1\0\0\0\2\0\0\0", False, 3, 4), (8, 14))
        self.assertEqual(mpw_backup.sums_after(b"\0\0\0\1\0\0\0\2", True, 3, 4), (8, 14))


class Copies(Folder):
    def test_a_copy(self):
        with closing(open_store(self.store)):
            before = [self.files(it) for it in (self.store, self.store + "-wal")]
            status, said, told = self.run_backup()
            self.assertEqual([self.files(it) for it in (self.store, self.store + "-wal")], before)
        [name] = self.names()
        self.assertRegex(name, "^[0-9]{4}-[0-9]{2}-[0-9]{2}T[0-9]{6}Z$")
        self.assertEqual((status, said, told), (0, f"{self.copies}/{name}: rows 3\n", ""))
        self.assertEqual(sorted(os.listdir(self.at("copies", name))), ["desk.db", "desk.db-wal"])
        self.assertEqual(rows_of(self.at("copies", name, "desk.db")), [1, 2, 3])
        for path in self.copies, self.at("copies", name), self.at("copies", name, "desk.db"):
            self.assertEqual(os.stat(path).st_mode & 0o077, 0)

    def files(self, path):
        with open(path, "rb") as file:
            return file.read(), os.stat(path).st_mtime_ns

    def test_a_half_change_is_left_out(self):
        with closing(open_store(self.store)):
            with open(self.store + "-wal", "rb") as file:
                log = file.read()
            with open(self.store + "-wal", "ab") as file:
                file.write(log[32:1000])
            self.assertEqual(self.run_backup()[0], 0)
        with open(self.at("copies", self.names()[0], "desk.db-wal"), "rb") as file:
            self.assertEqual(file.read(), log + bytes(24))

    def test_without_a_log(self):
        open_store(self.store).close()
        self.assertEqual(self.run_backup()[0], 0)
        self.assertEqual(os.listdir(self.at("copies", self.names()[0])), ["desk.db"])

    def test_while_it_changes(self):
        """Each copy has the rows from the first on, without a gap, and at least those that were stored before."""
        open_store(self.store, 10).close()
        words = [sys.executable, "-c", WRITER, self.store]
        with subprocess.Popen(words, stdin=subprocess.PIPE, stdout=subprocess.PIPE) as writer:
            stored = 0
            for _ in range(5):
                for _ in range(150):
                    stored = int(writer.stdout.readline())
                status, said, told = self.run_backup()
                self.assertEqual((status, told), (0, ""))
                rows = rows_of(self.at("copies", self.names()[-1], "desk.db"))
                self.assertEqual(rows, list(range(1, len(rows) + 1)))
                self.assertGreaterEqual(len(rows), stored)
                self.assertTrue(said.endswith(f": rows {len(rows)}\n"))
            writer.communicate()
        self.assertEqual(len(self.names()), 5)

    def test_newest(self):
        with closing(open_store(self.store)):
            for name in "2001-01-01T000000Z", "2002-01-01T000000Z", "2003-01-01T000000Z", "2004-01-01T000000Z", "2005", "2001-01-01T000001Z":
                os.makedirs(self.at("copies", name))
                if name != "2001-01-01T000001Z":
                    with open(self.at("copies", name, "desk.db"), "w"):
                        pass
            with open(self.at("copies", "2002-01-01T000000Z", "note"), "w"):
                pass
            status, _, told = self.run_backup("--newest", "2")
        self.assertEqual((status, told), (
            0, f"mpw-backup: {self.copies}/2002-01-01T000000Z: it has note too, so it stays: remove it by hand\n"))
        found = self.names()
        self.assertEqual((len(found), found[:4]), (5, ["2001-01-01T000001Z", "2002-01-01T000000Z", "2004-01-01T000000Z", "2005"]))

    def test_a_half_copy_is_removed(self):
        """That of a process which is gone, and not that of one which is there."""
        ended = subprocess.Popen(["true"])
        ended.wait()
        gone, there = (f"2001-01-01T000000Z.{number}.new" for number in (ended.pid, os.getpid()))
        os.makedirs(self.at("copies", gone))
        os.makedirs(self.at("copies", there))
        with closing(open_store(self.store)):
            self.assertEqual(self.run_backup()[0], 0)
        self.assertEqual((len(self.names()), self.names()[0]), (2, there))


class Refused(Folder):
    def test_what_is_no_store(self):
        for name, make, why in (
                ("none", None, "No such file or directory"), ("empty", lambda path: open(path, "w").close(), "it is empty, so it has no store"),
                ("folder", os.mkdir, "Is a directory")):
            if make:
                make(self.at(name))
            status, said, told = self.run_backup(store=self.at(name))
            self.assertEqual((status, said, self.names()), (4, "", []))
            self.assertTrue(told.startswith(f"mpw-backup: {self.at(name)}: {why}"), told)

    def test_what_is_not_sound(self):
        with closing(open_store(self.store, 7)):
            status, said, told = self.run_backup()
        self.assertEqual((status, said, self.names()), (1, "", []))
        self.assertEqual(told, "mpw-backup: the copy isn't sound, and is removed: error: bad rows: look at the store itself with mpw store check\n")

    def test_without_a_check(self):
        os.unlink(self.program)
        with closing(open_store(self.store)):
            status, said, told = self.run_backup()
        self.assertEqual((status, said, self.names()), (3, "", []))
        self.assertIn("mpw store check can't be run: build it (./mpw build store)", told)

    def test_what_never_rests(self):
        """A file that changes all the time is tried so long, and no copy is left."""
        with closing(open_store(self.store)):
            words = [sys.executable, "-c", "import os, sys, time\nwhile True: os.utime(sys.argv[1]); time.sleep(0.01)", self.store]
            with subprocess.Popen(words) as touching:
                time.sleep(0.5)
                status, said, told = self.run_backup("--seconds", "1")
                touching.kill()
        self.assertEqual((status, said, self.names()), (3, "", []))
        self.assertIn("it changed each time while it was copied, for 1 seconds: try again when fewer requests come", told)

    def test_words(self):
        for words, why in ((("--newest", "0"), "--newest 0 is below 1: give 1 or more"), (("--seconds", "-1"), "--seconds -1 is below 0: give 0 or more")):
            self.assertEqual(self.run_backup(*words), (2, "", f"mpw-backup: {why}\n"))


if __name__ == "__main__":
    unittest.main()
