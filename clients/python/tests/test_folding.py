"""A store's file by itself, without its log: while a script runs, the log is copied into the file again and again. So the file alone has nearly all rows, a
kill at any moment loses none that was answered, and neither does a copy that fails. The program is MPW_PROGRAM, else the one that the gate built."""
import os
import random
import resource
import shutil
import signal
import sqlite3
import subprocess
import tempfile
import threading
import time
import unittest
from contextlib import closing, contextmanager, suppress

from test_serve import DIGEST, LIMIT, MPW
from make import ENDEL, LAYER, XY, box, library, long, record, short, structure

OK = b"OK 0\n"
# A frame of the log with a page of 4096 bytes, and how many there are before the log is copied.
FRAME, FRAMES = 24 + 4096, 255
# A text element, which no library needs.
NOTE = record((0x0C, 0)) + record(LAYER, short(1)) + record((0x16, 2), short(0)) + record(XY, long(0, 0)) + record((0x19, 6), b"a" * 500) + record(ENDEL)


@contextmanager
def folder():
    """A folder in memory, if there is one: a killed program leaves what it has written."""
    with tempfile.TemporaryDirectory(prefix="mpw-folding-", dir="/dev/shm" if os.path.isdir("/dev/shm") else None) as path:
        yield lambda name: os.path.join(path, name)


@contextmanager
def script(store, **popen):
    """A script over a store, with a session of the officer. It goes on until its input ends."""
    words = [MPW, "script", "--officer", "root", "--digest", DIGEST, "--store", store]
    with subprocess.Popen(words, stdin=subprocess.PIPE, stdout=subprocess.PIPE, stderr=subprocess.PIPE, **popen) as process:
        try:
            assert ask(process, b"open root abc\nactivate officer\n") == [OK, OK]
            yield process
        finally:
            process.kill()


def changes(first, last):
    """Lines of which each changes a desk that took those before."""
    return [f"addrole r{number // 2}\n".encode() if number % 2 == 0 else f"delrole r{number // 2}\n".encode() for number in range(first, last)]


def ask(process, text):
    """Sends text, and returns the reply to each of its lines."""
    process.stdin.write(text)
    process.stdin.flush()
    return [process.stdout.readline() for _ in range(text.count(b"\n"))]


def rows_in(store, *ends):
    """The lines of the rows in a copy of a file, and of what is next to it; the places are in order."""
    with folder() as at:
        for end in ("", *ends):
            shutil.copyfile(store + end, at("copy.db") + end)
        with closing(sqlite3.connect(at("copy.db"))) as copy:
            assert copy.execute("pragma integrity_check").fetchall() == [("ok",)]
            rows = copy.execute("select k, line from changes order by k").fetchall()
    assert [place for place, _ in rows] == list(range(1, len(rows) + 1))
    return [f"{line}\n".encode() for _, line in rows]


def of_roles(lines):
    """Those that `changes` has."""
    return [line for line in lines if line.startswith((b"addrole", b"delrole"))]


def feed(process, lines):
    """Writes lines, which nobody may read any more."""
    with suppress(BrokenPipeError, ValueError):
        process.stdin.write(b"".join(lines))
        process.stdin.flush()


@unittest.skipUnless(os.access(MPW, os.X_OK), f"{MPW} isn't built")
class Folding(unittest.TestCase):
    def test_the_file_alone(self):
        """After 2,500 changes the file without its log has at least 2,000 of them, from the first on. The log stays short."""
        with folder() as at, script(at("desk.db")) as process:
            lines, longest = changes(0, 2500), 0
            for first in range(0, 2500, 50):
                self.assertEqual(ask(process, b"".join(lines[first:first + 50])), [OK] * 50)
                longest = max(longest, os.path.getsize(at("desk.db-wal")))
            alone, whole = of_roles(rows_in(at("desk.db"))), of_roles(rows_in(at("desk.db"), "-wal"))
            self.assertGreaterEqual(len(alone), 2000)
            self.assertEqual((whole, alone), (lines, lines[:len(alone)]))
            self.assertLess(longest, 2 * FRAMES * FRAME)

    def test_killed_at_any_moment(self):
        """Each change that was answered is there, and at most one more, however near the kill was to a copy of the log."""
        chance, there = random.Random(1), 0
        with folder() as at:
            for _ in range(8):
                with script(at("desk.db")) as process:
                    lines = changes(there, there + 600)
                    feeding = threading.Thread(target=feed, args=(process, lines))
                    feeding.start()
                    answered = [process.stdout.readline() for _ in range(chance.randrange(200, 300))]
                    time.sleep(chance.uniform(0, 0.003))
                    process.send_signal(signal.SIGKILL)
                    answered += process.stdout.readlines()
                    feeding.join()
                self.assertEqual(answered, [OK] * len(answered))
                found = of_roles(rows_in(at("desk.db"), "-wal"))
                self.assertIn(len(found) - there, (len(answered), len(answered) + 1))
                self.assertEqual(found, changes(0, len(found)))
                there = len(found)

    def test_a_copy_that_fails(self):
        """The file can't grow, so the log can't be copied into it. The change that finds that is refused and closes the desk; those before are there, and
        go into the file once it may grow."""
        notes = library(structure("NOTES", box(1, 0, 0, 10, 10), NOTE * 3000))
        self.assertGreater(len(notes), 1.4 * FRAMES * FRAME)
        with folder() as at:
            with script(at("desk.db")) as process:
                text = b"grant submit notes officer\nsubmit notes NOTES %d\n" % len(notes) + notes
                self.assertEqual((process.communicate(text, LIMIT)[0], process.returncode), (OK + b"OK 1\nversion 1\n", 0))
            most = os.path.getsize(at("desk.db"))

            def limited():
                signal.signal(signal.SIGXFSZ, signal.SIG_IGN)
                resource.setrlimit(resource.RLIMIT_FSIZE, (most, most))

            with script(at("desk.db"), preexec_fn=limited) as process:
                replies, told = process.communicate(b"".join(changes(0, 600)), LIMIT)
                accepted = replies.splitlines(keepends=True).count(OK)
                rest = [b"REFUSED 60 store\n"] + [b"REFUSED 61 closed\n"] * (599 - accepted)
                self.assertEqual((replies.splitlines(keepends=True), process.returncode), ([OK] * accepted + rest, 3))
                self.assertIn(b"error: the store: ", told)
            self.assertGreater(accepted, 100)
            self.assertEqual(of_roles(rows_in(at("desk.db"), "-wal")), changes(0, accepted))
            with script(at("desk.db")) as process:
                replies, _ = process.communicate(b"".join(changes(accepted, accepted + 1)), LIMIT)
                self.assertEqual((replies, process.returncode), (OK, 0))
            self.assertEqual(of_roles(rows_in(at("desk.db"))), changes(0, accepted + 1))


if __name__ == "__main__":
    unittest.main()
