"""mpw-assemble: the wafer that it writes has the desk's markers, and its manifest says what is in it. The desk and
`mpw check` are the model's here, and the programs in test_assembled.py."""
import hashlib
import os
import unittest

from assembling import WithFolder, WithShuttle, assemble_module, keys

import scripts
import shuttles
import stored
from geometry import ORIENTATIONS
from mpw_assembly import Names
from mpw_checked import tally
from mpw_gdsii import library_of
from mpw_store import Submission
from scripts.runs import run_script
from scripts.signing import sign_script

WAFERS = 50


def record_wafer(script):
    """The rows of a script, and its last run."""
    recorder = stored.Recorder()
    recorder.serve(script.text)
    return recorder, recorder.desk.wafer.run


class RandomWafers(WithFolder):
    """Cells that refer to one another, in all orientations and in arrays: the wafer's markers are the desk's, by key."""

    def setUp(self):
        super().setUp()
        self.module, self.listed = assemble_module(), None
        self.module.check = self.check
        self.seen = {what: 0 for what in [*ORIENTATIONS, "bound", "bound to an earlier version", "array", "renamed", "unit"]}

    def check(self, program, deck, top, path, waivers):
        """Checks in this process."""
        with open(path, "rb") as file:
            listing = stored.check(deck, top, file.read()).splitlines()
        self.listed = [line.split(" ")[0] for line in listing[1:]]
        return tally(self.listed, waivers)

    def wafers(self):
        """Scripts with a finished run, from either generator."""
        number = found = 0
        while found < WAFERS:
            number += 1
            script = (sign_script if number % 8 == 0 else run_script)(scripts.random_of("wafers", number))
            if script.run is not None:
                found += 1
                yield number, script

    def note(self, found, versions, run):
        """Counts what a wafer has."""
        for root in run.roots:
            self.seen[root.orientation] += 1
        for entry in found["submissions"]:
            bound = entry["bound"].items()
            self.seen["bound"] += len(bound)
            self.seen["bound to an earlier version"] += sum(version < versions[cell] for cell, version in bound)
            self.seen["renamed"] += sum(name != own for own, name in entry["structures"].items())
            self.seen["unit"] += entry["unit"] != 1
        self.seen["array"] += self.library().count(b"\0\4\x0b\0")

    def test_markers(self):
        for number, script in self.wafers():
            with self.subTest(number):
                recorder, run = record_wafer(script)
                recorder.write(self.store)
                options = self.module.options_of(["--draft", "--program", self.program, self.store, self.out])
                found = self.module.assemble(options)
                self.assertEqual(self.listed, keys(run))
                self.assertEqual(found["markers"], len(run.markers))
                self.assertEqual(found["verdict"], self.verdict(recorder))
                self.assertEqual(found["sha256"], hashlib.sha256(self.library()).hexdigest())
                self.note(found, {one.cell: one.version for one in recorder.desk.shelf.submissions}, run)
                os.unlink(self.store)
        self.assertEqual([what for what, count in self.seen.items() if count == 0], [])

    def verdict(self, recorder):
        """The desk's verdict, asked by who may."""
        recorder.desk.policy.need = lambda operation, about: None
        return recorder.desk.sign_off.verdict()[0]


class Shuttles(WithShuttle):
    """Small shuttles by hand."""

    def test_three_firms(self):
        found = self.record_signed()
        status, printed, told = self.assemble()
        self.assertEqual((status, told), (0, ""))
        self.assertIn("the verdict is clean: each of 3 markers of run 1 has a signed waiver", printed)
        manifest = self.manifest()
        self.assertEqual((manifest["verdict"], manifest["draft"], manifest["markers"]), ("clean", False, 3))
        self.assertEqual(manifest["run"]["waivers"], [{"key": key, "asker": "carl", "signer": "dora"} for key in found])
        parts = [(it["cell"], it["version"], it["submitter"], it["bound"]) for it in manifest["submissions"]]
        self.assertEqual(parts, [
            ("pad", 1, "ann", {}), ("chip", 1, "bob", {"pad": 1}), ("pad", 2, "ann", {}),
            ("seal", 1, "cyd", {"chip": 1, "pad": 2}), ("pad", 3, "ann", {})])
        digests = [it["sha256"] for it in manifest["submissions"]]
        payloads = shuttles.pad(20), shuttles.chip(), shuttles.pad(10), shuttles.seal(), shuttles.pad(10)
        self.assertEqual(digests, [hashlib.sha256(payload).hexdigest() for payload in payloads])
        placed = [" ".join(str(it[what]) for what in ("cell", "label", "orientation", "x", "y")) for it in manifest["placements"]]
        self.assertEqual([f"place {words}" for words in placed], list(shuttles.PLACES))
        self.assertEqual([it["structure"] for it in manifest["placements"]], ["seal.1.WAFER", "pad.3.TOP", "chip.1.TOP", "pad.3.TOP"])

    def test_what_is_written(self):
        """Only the elements that the desk reads, of structures that a top reaches; always the same bytes; for the owner alone."""
        self.record_signed()
        self.assemble()
        text = self.library()
        for word in b"NOBODY", b"label!", b"mine", b"ALONE", b"nobody":
            self.assertNotIn(word, text)
        names = list(library_of(text).structures)
        self.assertEqual(names[:5], ["WAFER", "pad.1.TOP", "pad.1.VIA", "chip.1.VIA", "chip.1.TOP"])
        self.assertEqual(self.assemble(out=self.file("again.gds"))[0], 0)
        with open(self.file("again.gds"), "rb") as file:
            self.assertEqual(file.read(), text)
        self.assertEqual(os.stat(self.out).st_mode & 0o077, 0)
        self.assertEqual(sorted(os.listdir(self.folder)), [
            "again.gds", "again.gds.json", "desk.db", "mpw", "wafer.gds", "wafer.gds.json"])

    def test_example(self):
        self.record(shuttles.large_shuttle())
        self.assertEqual(self.assemble()[0], 0)
        waivers = {it["key"]: (it["asker"], it["signer"]) for it in self.manifest()["run"]["waivers"]}
        self.assertEqual(waivers.pop("metal8.space:H:0:7000:9000:250000:310000"), ("carl", "dora"))
        self.assertEqual(set(waivers.values()), {("ann", "dora")})
        names = [it["structures"] for it in self.manifest()["submissions"]]
        self.assertEqual(names[0]["TOP"], "ring.1.TOP")
        self.assertEqual(names[1], {"TOP": "farm.2.TOP", "VIA1": "VIA1"})

    def test_not_clean(self):
        """What isn't clean is written as a draft alone; what was there stays."""
        self.record(shuttles.three_firms(), shuttles.session("carl", "shuttle", "waive w:V:0:500:510:0:100"))
        with open(self.out, "wb") as file:
            file.write(b"old")
        status, printed, told = self.assemble()
        self.assertEqual((status, printed), (1, ""))
        self.assertIn("the verdict is open 3: 3 of 3 markers of run 1 have no signed waiver", told)
        self.assertEqual((self.library(), sorted(os.listdir(self.folder))), (b"old", ["desk.db", "mpw", "wafer.gds"]))
        status, printed, told = self.assemble("--draft")
        self.assertEqual((status, told), (0, ""))
        self.assertIn("a draft, and the verdict is open 3", printed)
        manifest = self.manifest()
        self.assertEqual((manifest["draft"], manifest["verdict"]), (True, "open 3"))
        self.assertEqual(manifest["run"]["waivers"], [{"key": "w:V:0:500:510:0:100", "asker": "carl", "signer": None}])

    def test_stale(self):
        """The draft of a stale run has the placements that the run checked."""
        self.record(shuttles.three_firms(), shuttles.session("carl", "shuttle", "unplace pad b"))
        status, _, told = self.assemble()
        self.assertEqual(status, 1)
        self.assertIn("the verdict is stale", told)
        self.assertEqual(self.assemble("--draft")[0], 0)
        manifest = self.manifest()
        self.assertEqual((manifest["verdict"], manifest["markers"], len(manifest["placements"])), ("stale", 3, 4))

    def test_same_again(self):
        """A deck that differs in its last line feed, and the same placements under other labels, aren't stale."""
        again = ["unplace " + " ".join(words.split(" ")[1:3]) for words in shuttles.PLACES]
        again += [words.replace(" b ", " other ") for words in shuttles.PLACES]
        deck = shuttles.with_payload("deck", shuttles.DECK[:-1])
        self.record(shuttles.three_firms(), shuttles.session("carl", "shuttle", *again, deck))
        self.assertEqual(self.assemble("--draft")[0], 0)
        self.assertEqual(self.manifest()["verdict"], "open 3")
        self.assertEqual([it["label"] for it in self.manifest()["placements"]], list("abcd"))
        os.unlink(self.store)
        self.record(shuttles.three_firms(), shuttles.session("carl", "shuttle", shuttles.with_payload("deck", shuttles.DECK + b"width x 1/0 2")))
        self.assertIn("stale", self.assemble()[2])

    def test_not_finished(self):
        """The draft of a desk without a finished run has the present placements."""
        recorder = stored.Recorder()
        recorder.serve(shuttles.three_firms())
        *rows, finished, close = recorder.rows
        self.assertEqual((finished[2:4], close[3]), ((3, "1"), "close"))
        recorder.rows = [*rows, (finished[0], *close[1:])]
        recorder.write(self.store)
        status, _, told = self.assemble()
        self.assertEqual(status, 1)
        self.assertIn("the desk has no finished run", told)
        self.assertEqual(self.assemble("--draft")[0], 0)
        manifest = self.manifest()
        self.assertEqual((manifest["verdict"], manifest["markers"], len(manifest["placements"])), ("notfinished", None, 4))
        self.assertEqual(manifest["run"]["finished"], False)

    def test_without_placements(self):
        self.record(b"open root abc\nactivate officer\n")
        self.assertEqual(self.assemble()[0], 1)
        self.assertEqual(self.assemble("--draft")[0], 0)
        self.assertEqual((self.manifest()["run"], list(library_of(self.library()).structures)), (None, ["WAFER"]))


class NamesOfStructures(unittest.TestCase):
    def names(self, *structures):
        """The names of structures, each given as its cell, its version and its own name."""
        names = Names(own for _, _, own in structures)
        return [names.name(Submission(0, 0, cell, version, "", ""), own) for cell, version, own in structures]

    def test_rule(self):
        self.assertEqual(self.names(("a", 1, "X"), ("b", 1, "Y")), ["X", "Y"])
        self.assertEqual(self.names(("a", 1, "X"), ("b", 2, "X"), ("b", 2, "WAFER")), ["a.1.X", "b.2.X", "b.2.WAFER"])
        self.assertEqual(self.names(("a", 1, "2.b"), ("c", 1, "2.b"), ("a.1", 2, "b"), ("d", 1, "b")), ["a.1.2.b", "c.1.2.b", "a.1.2.b~1", "d.1.b"])
        self.assertEqual(self.names(("a", 1, "X"), ("b", 1, "X"), ("c", 1, "a.1.X"), ("c", 1, "a.1.X~1")), ["a.1.X~2", "b.1.X", "a.1.X", "a.1.X~1"])

    def test_long(self):
        long = "n" * 255
        names = self.names(("a", 1, long), ("a", 2, long), ("a", 3, "m" * 251), ("b", 1, "m" * 251), ("b", 22, "m" * 251), ("b", 1, long))
        self.assertEqual(names[0], "a.1." + "n" * 236 + "~1")
        self.assertEqual(names[2], "a.3." + "m" * 251)
        self.assertEqual(len(set(names)), len(names))
        self.assertLessEqual(max(map(len, names)), 255)

    def test_many(self):
        """Many names of one stem cost a number each."""
        long = "n" * 250
        names = self.names(*(("c" * 240, version, long) for version in range(20000)))
        self.assertEqual(names[-1], "c" * 240 + "~20000")


if __name__ == "__main__":
    unittest.main()
