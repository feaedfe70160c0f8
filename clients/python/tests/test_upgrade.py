"""Stores that earlier versions left, opened by the present program: each desk goes on as the model does after the same lines, as a script and as a service.
The program is MPW_PROGRAM, else the one that the gate built."""
import glob
import os
import re
import shutil
import subprocess
import sys
import tarfile
import tempfile
import unittest

import shuttles
import stored
from test_serve import DIGEST, LIMIT, MPW
from test_stored_service import rows_of, service

HERE = os.path.dirname(os.path.abspath(__file__))
sys.path.append(os.path.join(HERE, "stores"))

from old_store import ASKED, SCRIPTS  # noqa: E402

STORES = sorted(glob.glob(os.path.join(HERE, "stores", "*.tar.gz")))
# What asks only, of each firm and of those who sign, and what changes the desk then.
LOOKS = b"".join(
    shuttles.session(user, role, "whoami", "cells", "status", "markers", "waivers")
    for user, role in (("ann", "alpha"), ("bob", "beta"), ("cyd", "gamma"), ("carl", "shuttle"), ("dora", "signing")))
CHANGES = shuttles.session("dora", "signing", f"sign {ASKED}", "verdict") + shuttles.session(
    "ann", "alpha", shuttles.with_payload("submit pad TOP", shuttles.pad(10)), "cells") + shuttles.session("carl", "shuttle", "run", "markers", "verdict")


@unittest.skipUnless(os.access(MPW, os.X_OK), f"{MPW} isn't built")
class OldStores(unittest.TestCase):
    def setUp(self):
        self.folder = tempfile.mkdtemp(prefix="mpw-upgrade-")
        self.addCleanup(shutil.rmtree, self.folder)
        self.model = stored.Recorder()
        for number, script in enumerate(SCRIPTS, 1):
            self.model.serve(script, number)

    def unpacked(self, path):
        """A copy of an old store."""
        folder = tempfile.mkdtemp(dir=self.folder)
        with tarfile.open(path) as tar:
            for member in tar.getmembers():
                with tar.extractfile(member) as given, open(os.path.join(folder, os.path.basename(member.name)), "wb") as file:
                    shutil.copyfileobj(given, file)
                os.chmod(file.name, 0o600)
        return os.path.join(folder, "desk.db")

    def test_there_is_one(self):
        self.assertTrue(STORES)

    def test_script(self):
        expected = self.model.serve(LOOKS, 4) + self.model.serve(CHANGES, 5)
        for path in STORES:
            with self.subTest(os.path.basename(path)):
                store, found = self.unpacked(path), []
                for script in LOOKS, CHANGES:
                    words = [MPW, "script", "--officer", "root", "--digest", DIGEST, "--store", store]
                    ended = subprocess.run(words, input=script, stdout=subprocess.PIPE, stderr=subprocess.PIPE, timeout=LIMIT)
                    self.assertEqual(ended.returncode, 0, ended.stderr)
                    self.assertRegex(ended.stderr.decode(), f"^mpw: {re.escape(store)} has [0-9]+ rows and [0-9]+ finished runs?\n$")
                    found += ended.stdout.decode().splitlines()
                self.assertEqual(found, expected)
                rows = rows_of(store)
                self.assertEqual([row[1:] for row in rows], [(kind, line) for _, _, kind, line, _ in self.model.rows])

    def test_service(self):
        """The rows of the old version stay as they were, before those of the new one."""
        for path in STORES:
            with self.subTest(os.path.basename(path)):
                store, copy = self.unpacked(path), self.unpacked(path)
                with service(store, 1) as served:
                    with served.desk("dora", "dora", "signing") as desk:
                        self.assertEqual([waiver.signer for waiver in desk.waivers()], [None, "dora"])
                        desk.sign(ASKED)
                        self.assertEqual(desk.verdict().number, 1)
                    status, _, told = served.end()
                before, after = rows_of(copy), rows_of(store)
                self.assertEqual(status, 0)
                self.assertRegex(told, f"^mpw: {re.escape(store)} has {len(before)} rows and [0-9]+ finished runs?\n$")
                self.assertEqual((after[:len(before)], after[-2][2]), (before, f"sign {ASKED}"))


if __name__ == "__main__":
    unittest.main()
