"""The command `./mpw`: that it chooses a program that is there at once, and looks for newer sources in less than 0.05 processor seconds. Its programs are stand-ins."""
import os
import resource
import shutil
import subprocess
import tempfile
import time
import unittest

from stand_in import TOP

PROGRAM = '#!/bin/sh\necho "$0 $*"\n'
MOST = 0.05
TRIES = 20


class Command(unittest.TestCase):
    def setUp(self):
        """A tree whose crates are those of the repository, but for the one of the program."""
        self.folder = tempfile.mkdtemp(prefix="mpw-command-")
        self.addCleanup(shutil.rmtree, self.folder)
        os.mkdir(self.file("crates"))
        for name in os.listdir(os.path.join(TOP, "crates")):
            if name != "mpw_firm":
                os.symlink(os.path.join(TOP, "crates", name), self.file("crates", name))
        for name in "src", "specs":
            shutil.copytree(os.path.join(TOP, "crates", "mpw_firm", name), self.file("crates", "mpw_firm", name))
        for name in "mpw", "crates.txt":
            shutil.copy2(os.path.join(TOP, name), self.file(name))
        os.symlink(os.path.join(TOP, "clients"), self.file("clients"))
        os.mkdir(self.file("bin"))
        self.write(self.file("bin", "rt"), "#!/bin/sh\n")
        self.source = self.file("crates", "mpw_firm", "src", "main.rt")

    def file(self, *names):
        return os.path.join(self.folder, *names)

    def write(self, path, text):
        os.makedirs(os.path.dirname(path), exist_ok=True)
        with open(path, "w", encoding="ascii") as file:
            file.write(text)
        os.chmod(path, 0o755)

    def program(self, *below):
        """Puts a stand-in in the place of a program, newer than each source."""
        path = self.file("crates", "mpw_firm", "out", *below, "mpw_firm")
        self.write(path, PROGRAM)
        return path

    def run_mpw(self, *words, cwd=None):
        """The status of ./mpw, what it printed, and what it printed on the standard error."""
        path = f"{self.file('bin')}:{os.environ['PATH']}"
        ended = subprocess.run([self.file("mpw"), *words], cwd=cwd, stdin=subprocess.DEVNULL, stdout=subprocess.PIPE, stderr=subprocess.PIPE,
                               env={**os.environ, "PATH": path}, timeout=60)
        return ended.returncode, ended.stdout.decode(), ended.stderr.decode()

    def assert_quick(self, *words):
        """The processor seconds of the quickest of some runs count, since other work may slow down each of them."""
        times = []
        for _ in range(TRIES):
            before = resource.getrusage(resource.RUSAGE_CHILDREN)
            self.run_mpw(*words)
            after = resource.getrusage(resource.RUSAGE_CHILDREN)
            times.append(after.ru_utime + after.ru_stime - before.ru_utime - before.ru_stime)
        self.assertLess(min(times), MOST)

    def test_built(self):
        path = self.program()
        self.assertEqual(self.run_mpw("check", "--strict", "a b"), (0, f"{path} check --strict a b\n", ""))
        self.assert_quick("check")

    def test_unproved(self):
        """An unproved program of the present sources runs without Python."""
        path = self.program("unproved")
        self.write(f"{path}.sum", "")
        status, printed, told = self.run_mpw("check", "f")
        self.assertEqual((status, printed), (0, f"{path} check f\n"))
        self.assertIn("this run is unproved", told)
        self.assert_quick("check")
        self.assertEqual(self.run_mpw("--unproved", "check", "f"), (0, f"{path} check f\n", ""))

    def test_newer(self):
        """With a newer source, a newer list of crates or a newer toolchain the unproved program isn't taken as it is."""
        path = self.program("unproved")
        for newer in self.source, self.file("crates.txt"), self.file("bin", "rt"):
            self.write(f"{path}.sum", "")
            times = os.stat(newer).st_atime, os.stat(newer).st_mtime
            os.utime(newer, (time.time() + 10, time.time() + 10))
            status, printed, _ = self.run_mpw("check", "f")
            self.assertEqual((status != 0, printed), (True, ""), newer)
            os.utime(newer, times)
            self.assertEqual(self.run_mpw("check", "f")[0], 0)

    def test_other_ways(self):
        """A link, another folder and a relative path lead to the same program."""
        path = self.program()
        os.symlink(self.file("mpw"), self.file("bin", "mpw"))
        expected = f"{path} check\n"
        for words, cwd in ([self.file("bin", "mpw")], "/"), (["./mpw"], self.folder), (["../mpw"], self.file("bin")), (["bash", "mpw"], self.folder):
            ended = subprocess.run([*words, "check"], cwd=cwd, stdout=subprocess.PIPE, text=True, timeout=60)
            self.assertEqual(os.path.realpath(ended.stdout.split(" ")[0]), os.path.realpath(path), words)
            self.assertEqual(ended.stdout.split(" ")[1:], expected.split(" ")[1:])


if __name__ == "__main__":
    unittest.main()
