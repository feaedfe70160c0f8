"""The commands of README.md on waivers after a run, listings and the wafer: the test runs each, and compares what it prints."""
import os
import shutil
import subprocess
import sys
import tempfile
import textwrap
import unittest

import shuttles
import stored
from assembling import keys
from stand_in import TOP, StandIn, listening
from test_serve import BUILT, LIMIT

CLIENT = os.path.join(TOP, "clients", "python")
PROGRAMS = "mpw-ask", "mpw-assemble", "mpw-report"
NEEDED = [BUILT[1], os.path.join(TOP, "crates", "mpw_auditor", "out", "mpw_auditor")]


def blocks_of(title):
    """The indented blocks of a section, each as its lines."""
    with open(os.path.join(CLIENT, "README.md"), encoding="ascii") as file:
        text = file.read().split(f"\n## {title}\n")[1].split("\n## ")[0]
    found, is_open = [], False
    for line in text.splitlines():
        if line.startswith("    "):
            if not is_open:
                found.append([])
            found[-1].append(line)
        is_open = line.startswith("    ")
    return [textwrap.dedent("\n".join(lines)).splitlines() for lines in found]


class Commands(unittest.TestCase):
    def setUp(self):
        self.folder = tempfile.mkdtemp(prefix="mpw-readme-")
        self.addCleanup(shutil.rmtree, self.folder)
        self.recorder = stored.Recorder()
        self.recorder.serve(shuttles.three_firms())
        self.keys = keys(self.recorder.desk.wafer.run)
        self.recorder.serve(shuttles.signed(self.keys), 2)
        self.recorder.write(self.file("desk.db"))
        os.mkdir(self.file("bin"))
        self.program("mpw", f"{sys.executable} -SB {stored.HERE}")
        for name in PROGRAMS:
            more = f" --program {self.file('bin/mpw')}" if name == "mpw-assemble" else ""
            self.program(name, f"{sys.executable} -SB {os.path.join(CLIENT, name)}{more}")

    def program(self, name, words):
        with open(self.file(f"bin/{name}"), "w", encoding="ascii") as file:
            file.write(f'#!/bin/sh\nexec {words} "$@"\n')
        os.chmod(self.file(f"bin/{name}"), 0o755)

    def file(self, name):
        return os.path.join(self.folder, name)

    def read(self, name):
        with open(self.file(name), encoding="ascii") as file:
            return file.read()

    def write(self, name, text):
        with open(self.file(name), "wb") as file:
            file.write(text)
        if name.endswith(".token"):
            os.chmod(self.file(name), 0o600)

    def run_line(self, line, status=0):
        """Runs a line of the page by a shell; what it prints."""
        path = f"{self.file('bin')}:{os.environ['PATH']}"
        ended = subprocess.run(["sh", "-c", line], cwd=self.folder, env={**os.environ, "PATH": path}, stdout=subprocess.PIPE,
                               stderr=subprocess.PIPE, timeout=LIMIT)
        self.assertEqual((ended.returncode, ended.stderr), (status, b""), line)
        return ended.stdout.decode()

    def test_waivers_after_a_run(self):
        (save,), (run, carry), expected, (sign,) = blocks_of("Waivers after a new run")
        for user in "carl", "dora":
            self.write(f"{user}.token", f"{user}\n".encode())
        stand_in = StandIn()
        stand_in.desk = self.recorder.desk
        with listening(stand_in.serve) as port:
            def ask(line):
                return self.run_line(line.replace("127.0.0.1:7001", f"127.0.0.1:{port}"))

            ask(save)
            ask(save.replace("waivers > before.txt", "'unplace pad d' 'place pad d R0 600 0'"))
            ask(run)
            ask(carry)
            self.assertEqual(self.read("sign.txt").splitlines(), expected)
            self.assertEqual(ask(sign), "OK 0\nOK 0\n")
            self.assertEqual(ask(sign.replace("< sign.txt", "verdict")), "OK 1\nopen 1\n")

    def test_listing(self):
        ((line,),) = blocks_of("A listing for other tools")
        self.write("rules.deck", shuttles.DECK)
        self.write("listing.txt", "".join([f"OK {len(self.keys)}\n", *(f"{key} pad\n" for key in self.keys)]).encode())
        self.assertEqual(self.run_line(line), "")
        self.assertIn('failures="1"', self.read("listing.xml"))
        self.assertEqual(len(self.read("listing.jsonl").splitlines()), 3)
        self.assertIn("| `w` | width | 3 | 0 | 10 nm | 11 nm |", self.read("listing.md"))

    def test_wafer(self):
        (line,), expected, _ = blocks_of("The wafer as GDSII")
        self.assertEqual(self.run_line(line).splitlines(), expected)

    @unittest.skipUnless(all(os.access(path, os.X_OK) for path in NEEDED), f"{' or '.join(NEEDED)} isn't built")
    def test_checking_again(self):
        (line,), _, (trail, check) = blocks_of("The wafer as GDSII")
        self.program("mpw", os.path.join(TOP, "mpw"))
        self.run_line(line)
        self.run_line(trail)
        self.assertEqual(self.read("run.deck").encode(), shuttles.DECK)
        listing = self.run_line(f"{check} 2> told.txt", 1)
        self.assertEqual(listing.splitlines()[1:], [f"{key} WAFER" for key in self.keys])


if __name__ == "__main__":
    unittest.main()
