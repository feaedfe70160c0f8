"""mpw-assemble on stores in all states, what it doesn't write over, and what it does with a check that fails."""
import hashlib
import os
import shutil
import sqlite3
import subprocess
import sys
import unittest
from contextlib import closing

from assembling import WithShuttle, keys

import shuttles
import stored
from scripts.written import Written, four_bytes, library, rectangle, single, xy


class Files(WithShuttle):
    """Stores in all states, and what isn't written over."""

    def sums(self):
        found = {}
        for name in sorted(os.listdir(self.folder)):
            with open(self.file(name), "rb") as file:
                found[name] = hashlib.sha256(file.read()).hexdigest()
        return found

    def test_log(self):
        """Rows that only the log has count, and neither file changes."""
        recorder = stored.Recorder()
        recorder.serve(shuttles.three_firms())
        recorder.serve(shuttles.signed(keys(recorder.desk.wafer.run)), 2)
        late = recorder.rows[60:]
        del recorder.rows[60:]
        recorder.write(self.file("live.db"))
        with closing(sqlite3.connect(self.file("live.db"))) as live:
            live.execute("PRAGMA journal_mode=WAL")
            live.execute("PRAGMA wal_autocheckpoint=0")
            with live:
                live.executemany("INSERT INTO changes VALUES (?, ?, ?, ?, ?)", late)
            for end in "", "-wal":
                shutil.copy(self.file("live.db") + end, self.store + end)
        before = self.sums()
        status, _, told = self.assemble()
        self.assertEqual((status, told), (0, ""))
        after = self.sums()
        self.assertEqual({name: after[name] for name in before}, before)
        self.assertEqual(sorted(set(after) - set(before)), ["wafer.gds", "wafer.gds.json"])
        os.unlink(self.store + "-wal")
        self.assertNotEqual(self.assemble()[0], 0)

    def test_in_use(self):
        self.record_signed()
        words = f"import sqlite3, sys\nc = sqlite3.connect({self.store!r}, isolation_level=None)\nc.execute('BEGIN EXCLUSIVE')\n"
        words += "print('ready', flush=True)\nsys.stdin.read()\n"
        with subprocess.Popen([sys.executable, "-c", words], stdin=subprocess.PIPE, stdout=subprocess.PIPE) as other:
            other.stdout.readline()
            status, _, told = self.assemble()
            other.stdin.close()
        self.assertEqual(status, 4)
        self.assertIn("a program has the store open", told)
        self.assertEqual(self.assemble()[0], 0)

    def test_inputs_stay(self):
        self.record_signed()
        shutil.copy(self.store, self.store + "-wal.old")
        os.link(self.store, self.file("second.db"))
        os.symlink(self.store, self.file("link.db"))
        before = self.sums()
        for out in self.store, self.store + "-wal", self.file("second.db"), self.file("link.db"):
            self.assertEqual(self.assemble(out=out)[0], 2, out)
        self.assertEqual(self.assemble("--manifest", self.store)[0], 2)
        self.assertEqual(self.assemble("--manifest", self.out)[0], 2)
        self.assertEqual(self.assemble(store=self.file("link.db"), out=self.store + "-wal")[0], 2)
        self.assertEqual(self.assemble(out=self.file("none/wafer.gds"))[0], 4)
        self.assertEqual(self.assemble(store=self.file("none.db"))[0], 4)
        self.assertEqual(self.sums(), before)

    def test_no_store(self):
        self.record_signed()
        with open(self.file("text"), "wb") as file:
            file.write(b"no database\n" * 400)
        with open(self.file("empty"), "wb"):
            pass
        with closing(sqlite3.connect(self.file("other"))) as other, other:
            other.execute("CREATE TABLE notes(text)")
        for name in "text", "empty", "other":
            status, printed, told = self.assemble("--draft", store=self.file(name))
            self.assertEqual((status, printed, told.count("\n")), (4, "", 1), told)
        self.assertEqual(self.assemble("--draft", store=self.folder)[0], 4)

    def test_bad_rows(self):
        changes = {
            "row 3": "DELETE FROM changes WHERE k = 3",
            "is no change": "UPDATE changes SET line = 'sign w:V:0:0:1:0:1' WHERE line LIKE 'sign %'",
            "row 5 ": "UPDATE changes SET line = 'open' WHERE k = 5",
            "row 9 ": "UPDATE changes SET kind = 4 WHERE k = 9",
            "row 11 ": "UPDATE changes SET line = 'whoami' WHERE k = 11",
            "has no payload": "UPDATE changes SET payload = NULL WHERE line LIKE 'submit seal%'",
            "isn't whole": "UPDATE changes SET payload = substr(payload, 1, 200) WHERE line LIKE 'submit seal%'",
            "no submission of it": "UPDATE changes SET line = 'submit pod TOP 1' WHERE k = (SELECT min(k) FROM changes WHERE line LIKE 'submit pad%')",
        }
        for word, change in changes.items():
            with self.subTest(change):
                self.record_signed()
                self.sql(change)
                status, printed, told = self.assemble("--draft")
                self.assertEqual((status, printed, told.count("\n")), (4, "", 1), told)
                self.assertIn(word, told)
                self.assertFalse(os.path.exists(self.out))
                os.unlink(self.store)


    def test_too_long(self):
        """A length that four bytes can't hold in nm; no desk reads this one, since the path has no type."""
        path = [Written(0x09, 0), Written(0x0D, 2, b"\0\1"), Written(0x0E, 2, b"\0\0"), Written(0x0F, 3, four_bytes(2))]
        for extension, status in (2**30, 4), (2**28, 0):
            begin = Written(0x30, 3, four_bytes(extension))
            text = library({"TOP": [[*path, begin, xy((0, 0), (5, 0)), Written(0x11, 0)]]}, 2)
            grants = "".join(f"grant {operation} pad officer\n" for operation in ("submit", "place"))
            lines = f"open root abc\nactivate officer\n{grants}".encode()
            self.record(lines + shuttles.with_payload("submit pad TOP", text) + b"place pad a R0 0 0\n")
            found, _, told = self.assemble("--draft")
            self.assertEqual((found, "TOP: a length doesn't fit into four bytes in nm" in told), (status, status == 4))
            os.unlink(self.store)


class Checks(WithShuttle):
    """The program that checks."""

    def replace_program(self, text):
        with open(self.program, "w", encoding="ascii") as file:
            file.write(f"#!/bin/sh\n{text}\n")

    def test_missing(self):
        self.record_signed()
        os.unlink(self.program)
        self.assertEqual(self.assemble()[0], 3)
        self.assertEqual(self.assemble("--draft")[0], 0)
        self.assertEqual((self.manifest()["verdict"], self.manifest()["draft"]), ("unknown", True))

    def test_unproved(self):
        """What ./mpw says of the program that runs is shown."""
        found = self.record_signed()
        listing = "".join(f"echo {key} WAFER; " for key in found)
        self.replace_program(f"echo 'mpw: not built yet' >&2; echo 3 shapes >&2; echo OK 3; {listing}exit 1")
        status, _, told = self.assemble()
        self.assertEqual((status, told), (0, "mpw: not built yet\n"))

    def test_other_listings(self):
        found = self.record_signed()
        listings = {
            "echo OK 1; echo w:V:0:0:1:0:1 WAFER; exit 1": "finds no such marker",
            f"echo OK 2; echo {found[0]} WAFER; exit 1": "a part of a listing",
            "echo OK 1; echo hello WAFER; exit 1": "no listing",
            "exit 0": "no listing",
            "echo 'error: wafer: deep' >&2; exit 4": "status 4: error: wafer: deep",
        }
        for text, word in listings.items():
            with self.subTest(text):
                self.replace_program(text)
                status, printed, told = self.assemble()
                self.assertEqual((status, printed), (3, ""))
                self.assertIn(word, told)
                self.assertFalse(os.path.exists(self.out))

    def test_too_deep(self):
        """A cell of 64 levels can't be checked below another."""
        recorder = stored.Recorder()
        cells = [f"c{number}" for number in range(64)]
        lines = [f"grant {operation} {cell} officer" for cell in cells for operation in ("submit", "use", "place")]
        lines += [f"grant {operation} desk officer" for operation in ("deck", "run")]
        text = "".join(f"{line}\n" for line in ["open root abc", "activate officer", *lines]).encode()
        for before, cell in zip([None, *cells], cells):
            shown = [single(before, 0, 0)] if before else [rectangle((1, 0), 0, 0, 50, 50)]
            text += shuttles.with_payload(f"submit {cell} TOP", library({"TOP": shown}))
        text += shuttles.with_payload("deck", shuttles.DECK) + b"place c63 a R0 0 0\nrun\n"
        recorder.serve(text)
        recorder.write(self.store)
        status, _, told = self.assemble()
        self.assertEqual(status, 3)
        self.assertIn("deep", told)
        self.assertEqual(self.assemble("--draft")[0], 0)
        self.assertEqual(self.manifest()["verdict"], "unknown")


if __name__ == "__main__":
    unittest.main()
