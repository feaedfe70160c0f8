"""mpw-assemble with the programs: stores of `mpw script --store`, and `mpw check` on what is written. The desk's program is
MPW_PROGRAM, else the one that the gate built; that of `mpw check` is the gate's."""
import os
import shutil
import signal
import sqlite3
import subprocess
import unittest
from contextlib import closing, suppress

from assembling import WithShuttle, assemble_module, keys

import scripts
import shuttles
import stored
from scripts.runs import run_script
from scripts.signing import sign_script
from test_serve import BUILT, DIGEST, LIMIT, MPW
from stand_in import TOP

CHECK = BUILT[1]
WAFERS = int(os.environ.get("MPW_WAFERS", "12"))
AS_OFFICER = b"close\nopen root abc\nactivate officer\nmarkers\n"
KLAYOUT = """
layout = RBA::Layout.new
layout.read($file)
top = layout.cell("WAFER")
puts layout.top_cells.map { |cell| cell.name }.join(" "), layout.cells, top.bbox.to_s
infos = layout.layer_infos.sort_by { |info| [info.layer, info.datatype] }
puts infos.map { |info| RBA::Region.new(top.begin_shapes_rec(layout.layer(info))).merged.area.to_s }.join(" ")
"""


def serve(store, text):
    """Serves a script over a store: the lines of its replies."""
    words = [MPW, "script", "--officer", "root", "--digest", DIGEST, "--store", store]
    ended = subprocess.run(words, input=text, stdout=subprocess.PIPE, stderr=subprocess.PIPE, timeout=LIMIT)
    assert ended.returncode == 0, ended.stderr
    return ended.stdout.decode().splitlines()


def replies_in(lines):
    """The replies, each as the lines that belong to it."""
    found, lines = [], iter(lines)
    for line in lines:
        words = line.split(" ")
        found.append([next(lines) for _ in range(int(words[1]) if words[0] == "OK" else 0)])
    return found


def rows_of(store):
    with closing(sqlite3.connect(store)) as database:
        return database.execute("SELECT * FROM changes ORDER BY k").fetchall()


@unittest.skipUnless(os.access(MPW, os.X_OK), f"{MPW} isn't built")
class Stores(WithShuttle):
    """The desk is the program's, and `mpw check` the model's."""

    def test_as_by_the_model(self):
        """The same rows as the model's, and so the same wafer."""
        recorder = stored.Recorder()
        lines = recorder.serve(shuttles.three_firms())
        found = keys(recorder.desk.wafer.run)
        signing = recorder.serve(shuttles.signed(found), 2)
        recorder.write(self.store)
        self.assertEqual(self.assemble()[0], 0)
        wafer, manifest, live = self.library(), self.manifest(), self.file("live.db")
        self.assertEqual(serve(live, shuttles.three_firms()), lines)
        self.assertEqual(serve(live, shuttles.signed(found)), signing)
        self.assertEqual(rows_of(live), rows_of(self.store))
        status, _, told = self.assemble(store=live)
        self.assertEqual((status, told), (0, ""))
        self.assertEqual((self.library(), self.manifest()), (wafer, manifest))

    def begin(self, text):
        """A program that has answered a script, and waits for more."""
        words = [MPW, "script", "--officer", "root", "--digest", DIGEST, "--store", self.store]
        desk = subprocess.Popen(words, stdin=subprocess.PIPE, stdout=subprocess.PIPE)
        desk.stdin.write(text + b"no request\n")
        desk.stdin.flush()
        while desk.stdout.readline() != b"REFUSED 40 form\n":
            pass
        return desk

    def test_in_use_and_killed(self):
        """A store that a program has open is refused. The rows that a killed program left in the log count."""
        desk = self.begin(shuttles.three_firms() + shuttles.signed(self.keys()))
        with desk:
            status, _, told = self.assemble()
            self.assertEqual(status, 4)
            self.assertIn("a program has the store open", told)
            desk.send_signal(signal.SIGKILL)
        self.assertGreater(os.path.getsize(self.store + "-wal"), 4096)
        with open(self.store, "rb") as file, open(self.store + "-wal", "rb") as log:
            before = file.read(), log.read()
        status, _, told = self.assemble()
        self.assertEqual((status, told), (0, ""))
        self.assertEqual((self.manifest()["verdict"], self.manifest()["rows"]), ("clean", 80))
        with open(self.store, "rb") as file, open(self.store + "-wal", "rb") as log:
            self.assertEqual((file.read(), log.read()), before)

    def keys(self):
        recorder = stored.Recorder()
        recorder.serve(shuttles.three_firms())
        return keys(recorder.desk.wafer.run)


@unittest.skipUnless(os.access(MPW, os.X_OK) and os.access(CHECK, os.X_OK), f"{MPW} or {CHECK} isn't built")
class Wafers(WithShuttle):
    """The desk and `mpw check` are the programs: a check of what is written lists just the desk's markers."""

    def setUp(self):
        super().setUp()
        self.program, self.module = os.path.join(TOP, "mpw"), assemble_module()

    def checked(self, found, program=None):
        """The keys that mpw check lists of the wafer."""
        deck = self.file("rules.deck")
        with open(deck, "wb") as file:
            file.write(dict((row[0], row[4]) for row in rows_of(self.store))[found["run"]["deck"]["row"]])
        words = [program or self.program, "check", "--deck", deck, "--top", "WAFER", self.out]
        ended = subprocess.run(words, stdout=subprocess.PIPE, stderr=subprocess.PIPE, timeout=LIMIT)
        count, *lines = ended.stdout.decode().splitlines()
        self.assertEqual((count, ended.returncode), (f"OK {len(lines)}", 1 if lines else 0), ended.stderr)
        self.assertEqual({line.split(" ")[1] for line in lines} - {"WAFER"}, set())
        return [line.split(" ")[0] for line in lines]

    def test_three_firms(self):
        replies = replies_in(serve(self.store, shuttles.three_firms()))
        found = [line.split(" ")[0] for line in replies[-2]]
        self.assertEqual(replies_in(serve(self.store, shuttles.signed(found)))[-2], ["clean"])
        status, _, told = self.assemble()
        self.assertEqual((status, told), (0, ""))
        self.assertEqual(self.checked(self.manifest()), found)
        self.assertEqual(len(found), 3)

    def test_example(self):
        replies = replies_in(serve(self.store, shuttles.large_shuttle()))
        in_full = [reply for reply in replies if reply and all(":" in line.split(" ")[0] for line in reply)]
        found = [line.split(" ")[0] for line in in_full[-1]]
        status, _, told = self.assemble()
        self.assertEqual((status, told), (0, ""))
        self.assertEqual((self.checked(self.manifest()), len(found)), (found, 5))

    def wafers(self):
        """Scripts with a finished run, from either generator."""
        number = found = 0
        while found < WAFERS:
            number += 1
            script = (sign_script if number % 8 == 0 else run_script)(scripts.random_of("wafers", number))
            if script.run is not None:
                found += 1
                yield number, script

    def test_random(self):
        compared = markers = 0
        for number, script in self.wafers():
            with self.subTest(number):
                for end in "", "-wal":
                    with suppress(FileNotFoundError):
                        os.unlink(self.store + end)
                listed = replies_in(serve(self.store, script.text + AS_OFFICER))[-1]
                found = self.module.assemble(self.module.options_of(["--draft", "--program", CHECK, self.store, self.out]))
                checked = self.checked(found, CHECK)
                self.assertEqual(found["markers"], len(checked))
                if not any(line.startswith("masked ") for line in listed):
                    self.assertEqual([line.split(" ")[0] for line in listed], checked)
                    compared, markers = compared + 1, markers + len(listed)
        self.assertGreater(compared, WAFERS * 9 // 10)
        self.assertGreater(markers, WAFERS)

    @unittest.skipUnless(shutil.which("klayout"), "KLayout isn't installed")
    def test_klayout(self):
        """KLayout reads one top of the wafer's extent, and the areas of its layers."""
        serve(self.store, shuttles.three_firms())
        self.assertEqual(self.assemble("--draft")[0], 0)
        with open(self.file("read.rb"), "w", encoding="ascii") as file:
            file.write(KLAYOUT)
        words = ["klayout", "-b", "-zz", "-r", self.file("read.rb"), "-rd", f"file={self.out}"]
        offscreen = {**os.environ, "QT_QPA_PLATFORM": "offscreen"}
        told = subprocess.run(words, stdout=subprocess.PIPE, env=offscreen, check=True).stdout.decode().splitlines()
        names = {name for it in self.manifest()["submissions"] for name in it["structures"].values()}
        self.assertEqual(told, ["WAFER", str(len(names) + 1), "(-15100,-100;20000,7000)", "34800 7800"])


if __name__ == "__main__":
    unittest.main()
