"""A full disk: each output of `mpw check` and `mpw stitch` that finds no space left says so, with its name, and the status is 3. A reader that goes
away is another fault."""
import os
import shutil
import subprocess
import tempfile
import unittest

from stand_in import TOP

PROGRAM = os.path.join(TOP, "crates", "mpw_firm", "out", "mpw_firm")
CHECK = ["check", "--deck", "bars.deck", "--top", "TOP"]
LIBRARY, LISTING = "two-bars.gds", b"OK 2\nw:V:0:0:50:0:600 TOP\ns:V:0:50:90:0:600 TOP\n"
NO_SPACE = "can't be written: no space left: free some, or write to another disk"


@unittest.skipUnless(os.access(PROGRAM, os.X_OK), f"{PROGRAM} isn't built")
class Full(unittest.TestCase):
    def setUp(self):
        self.folder = tempfile.mkdtemp(prefix="mpw-full-")
        self.addCleanup(shutil.rmtree, self.folder)
        for name in "bars.deck", LIBRARY:
            shutil.copy(os.path.join(TOP, "examples", name), self.folder)
        with open(os.path.join(self.folder, "part"), "wb") as file:
            file.write(self.run_program(*CHECK, "--tiles", "1/1", LIBRARY)[1])

    def run_program(self, *words, output=subprocess.PIPE):
        ended = subprocess.run([PROGRAM, *words], cwd=self.folder, stdin=subprocess.DEVNULL, stdout=output, stderr=subprocess.PIPE, timeout=600)
        return ended.returncode, ended.stdout, ended.stderr.decode().splitlines()

    def test_standard_output(self):
        for words in ([*CHECK, LIBRARY], [*CHECK, "--summary", LIBRARY], [*CHECK, "--limit", "1", LIBRARY], [*CHECK, "--tiles", "1/1", LIBRARY],
                      ["stitch", "part"], ["stitch", "--limit", "1", "part"], ["check", "--help"], ["stitch", "--version"]):
            with self.subTest(words=words), open("/dev/full", "wb") as output:
                status, _, told = self.run_program(*words, output=output)
                self.assertEqual((status, told[-1]), (3, f"error: the standard output {NO_SPACE}"))

    def test_files(self):
        """What was printed before stays."""
        for words in ([*CHECK, "--report", "/dev/full", LIBRARY], [*CHECK, "--picture", "/dev/full", LIBRARY], ["stitch", "--report", "/dev/full", "part"]):
            with self.subTest(words=words):
                status, printed, told = self.run_program(*words)
                self.assertEqual((status, printed, told[-1]), (3, LISTING, f"error: /dev/full: {NO_SPACE}"))

    def test_link(self):
        """The name is the one that was given."""
        os.symlink("/dev/full", os.path.join(self.folder, "report.lyrdb"))
        status, _, told = self.run_program(*CHECK, "--report", "report.lyrdb", LIBRARY)
        self.assertEqual((status, told[-1]), (3, f"error: report.lyrdb: {NO_SPACE}"))

    def test_next_output(self):
        """A file that has space isn't said to have none since another had none."""
        status, _, told = self.run_program(*CHECK, "--report", "report.lyrdb", "--picture", "/dev/full", LIBRARY)
        self.assertEqual((status, told[-1]), (3, f"error: /dev/full: {NO_SPACE}"))
        self.assertTrue(os.path.getsize(os.path.join(self.folder, "report.lyrdb")))

    def test_no_reader(self):
        """A pipe without a reader has failed; no space was missing."""
        reading, writing = os.pipe()
        os.close(reading)
        with os.fdopen(writing, "wb") as output:
            status, _, told = self.run_program(*CHECK, LIBRARY, output=output)
        self.assertEqual((status, told[-1]), (3, "error: the standard output failed"))


if __name__ == "__main__":
    unittest.main()
