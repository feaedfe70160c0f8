"""The command of a check, what is read of its outputs, and units."""
import os
import sys
import tempfile
import unittest
from xml.etree import ElementTree

from mpw_desk import Axis, Key, Marker, Markers, Masked, Waiver
from mpw_klayout import check, desk, placement
from mpw_klayout.check import Outcome, Stopped, outcome_of, program_of, report_for, unit_of
from mpw_report import report_of

KEY = Key("s", Axis.V, 1, 20, 25, 100, 300)


class Units(unittest.TestCase):
    def test_accepted(self):
        for dbu, nm in (0.001, 1), (0.005, 5), (0.01, 10), (0.025, 25), (0.3, 300), (1.0, 1000), (0.0010000000000000002, 1):
            self.assertEqual(unit_of(dbu), nm)

    def test_refused(self):
        for dbu in 0.0005, 0.0001, 0.0254, 1.001, 2.0, 1e-9, 0.0015:
            with self.assertRaises(Stopped) as stopped:
                unit_of(dbu)
            self.assertIn("from 1 to 1000", str(stopped.exception))


class Commands(unittest.TestCase):
    def test_the_program(self):
        self.assertEqual(program_of(sys.executable), sys.executable)
        for missing in "/nowhere/mpw", "no-such-program-at-all":
            with self.assertRaises(Stopped) as stopped:
                program_of(missing)
            self.assertIn(missing, str(stopped.exception))

    def test_runs_and_is_ended(self):
        with tempfile.TemporaryDirectory() as folder:
            script = "import sys; print('a'); print('b', file=sys.stderr); sys.exit(4)"
            self.assertEqual(check.run([sys.executable, "-c", script], folder, lambda: None), (4, "a\n", "b\n"))
            marker = os.path.join(folder, "late")
            script = f"import time; time.sleep(20); open({marker!r}, 'w')"

            def cancel():
                raise KeyboardInterrupt

            self.assertRaises(KeyboardInterrupt, check.run, [sys.executable, "-c", script], folder, cancel)
            self.assertFalse(os.path.exists(marker))
            self.assertRaises(Stopped, check.run, [os.path.join(folder, "none")], folder, lambda: None)


class Outcomes(unittest.TestCase):
    def test_markers(self):
        told = "note: no rule names layer 5/0, which has 12 shapes\n4 shapes, 1 tiles, 3 markers, w 1, all 2, 1 ms\ntimes: read 0 ms\n"
        found = outcome_of(1, "w 1\nall 2\nt 0\nall 3\n", told, "a.gds")
        self.assertEqual(found.counts, [("w", 1), ("all", 2), ("t", 0)])
        self.assertEqual((found.text, found.details), ("3 markers: w 1, all 2", "no rule names layer 5/0, which has 12 shapes"))
        self.assertTrue(found.has_report)

    def test_no_markers(self):
        found = outcome_of(0, "w 0\nall 0\n", "note: rule w looks at nothing: layer 1/0 has no shapes\n", "a.gds")
        self.assertEqual((found.text, found.details), ("No markers", "rule w looks at nothing: layer 1/0 has no shapes"))
        self.assertFalse(found.has_report)
        self.assertEqual(outcome_of(0, "all 0\n", "", "a.gds").text, "No markers")

    def test_what_the_script_mpw_says(self):
        found = outcome_of(0, "all 0\n", "mpw: not built yet, so this run is unproved\n", "a.gds")
        self.assertEqual((found.text, found.details), ("No markers", "not built yet, so this run is unproved"))

    def test_faults(self):
        told = "".join(f"fault: a.gds: notmanhattan at byte {byte} in TOP\n" for byte in range(300))
        told += "error: a.gds: notmanhattan at byte 0 in TOP: draw it in steps\n"
        found = outcome_of(4, "", told, "a.gds")
        self.assertEqual(found.text, "notmanhattan at byte 0 in TOP: draw it in steps")
        self.assertEqual(found.details.splitlines()[0], "notmanhattan at byte 0 in TOP")
        self.assertEqual(found.details.splitlines()[-1], "and 100 more faults")
        self.assertTrue(found.has_report)

    def test_other_statuses(self):
        for status, told, text in (
            (5, "", "out of memory"), (-9, "", "mpw ended with status -9"), (70, "mpw: can't be built\n", "mpw: can't be built"),
            (3, "error: a.deck: No such file\n", "a.deck: No such file"),
        ):
            found = outcome_of(status, "", told, "a.gds")
            self.assertEqual((found.text, found.has_report, found.counts), (text, False, None))

    def test_a_report_under_another_name(self):
        text = report_of(Markers([Marker(KEY, ("A$B",))], []), [], top="A$B")
        tree = ElementTree.fromstring(report_for(text, "A$B", "A B<"))
        for path in "top-cell", "cells/cell/name", "items/item/cell":
            self.assertEqual([it.text for it in tree.iterfind(path)], ["A B<"])
        self.assertEqual(tree.findtext("items/item/values/value"), "edge-pair: (0.02,0.1;0.02,0.3)|(0.025,0.3;0.025,0.1)")


class Placements(unittest.TestCase):
    def test_words(self):
        for text in "R90 -10 20", " place pad a R90 -10 20 ", "pad a R90 -10 20":
            self.assertEqual(placement.placement_of(text), (False, 1, -10, 20))
        self.assertIsNone(placement.placement_of(" "))
        for text in "R45 0 0", "R90 0", "R90 0 0 0", "r90 0 0", "R90 0 1.5":
            self.assertRaises(ValueError, placement.placement_of, text)

    def test_back_to_the_cell(self):
        """A box goes to the wafer as the desk places it, and comes back; the two edges are still its edges."""
        turn = {"R0": (1, 0, 0, 1), "R90": (0, -1, 1, 0), "R180": (-1, 0, 0, -1), "R270": (0, 1, -1, 0),
                "M0": (1, 0, 0, -1), "M90": (0, 1, 1, 0), "M180": (-1, 0, 0, 1), "M270": (0, -1, -1, 0)}
        box = (3, 5, 11, 40)
        for word, (a, b, c, d) in turn.items():
            xs = sorted(a * x + b * y - 1000 for x, y in ((box[0], box[1]), (box[2], box[3])))
            ys = sorted(c * x + d * y + 700 for x, y in ((box[0], box[1]), (box[2], box[3])))
            on_wafer = Key("w", Axis.H, 0, *ys, *xs) if b else Key("w", Axis.V, 0, *xs, *ys)
            self.assertEqual(on_wafer.distance, 8)
            found = placement.key_in_cell(on_wafer, placement.placement_of(f"{word} -1000 700"))
            self.assertEqual((found.axis, found.box, found.distance), (Axis.V, box, 8), word)

    def test_markers_of_another_placement(self):
        placed = placement.placement_of("R90 1000 0")
        keys = [KEY._replace(x1=x, x2=x + 5, y0=0, y1=10) for x in (979, 980, 1000, 1001)]
        found = placement.near(Markers([Marker(key, ("pad",)) for key in keys], []), placed, (0, 0, 10, 15))
        self.assertEqual([it.key.x1 for it in found.full], [980, 1000])

    def test_report(self):
        markers = Markers([Marker(KEY, ("pad", "it's")), Marker(KEY._replace(rule="w"), ("pad",))], [Masked("w", 2)])
        waivers = [Waiver(KEY, "ann", "dora")]
        made = placement.desk_report(markers, waivers, "PAD", placement=placement.placement_of("M90 20 100"))
        first, second = ElementTree.fromstring(made).iterfind("items/item")
        self.assertEqual([it.text for it in first.iterfind("values/value")],
                         ["edge-pair: (0,0;0.2,0)|(0.2,0.005;0,0.005)", "text: 's:V:1:20:25:100:300 pad it\\'s'"])
        self.assertEqual(first.findtext("tags"), "waived,'asked by ann','signed by dora'")
        self.assertEqual(second.findtext("values/value"), "edge-pair: (0,0;0.2,0)|(0.2,0.005;0,0.005)")
        self.assertIsNone(second.findtext("tags") or None)
        self.assertEqual(len(placement.of_cell(markers, "it's").full), 1)
        self.assertEqual(placement.summary(markers, "finished 3"),
                         "Run: finished 3. Markers that you may see in full: 2. Masked: 2 of rule w.")


class Logins(unittest.TestCase):
    def test_addresses(self):
        self.assertEqual(desk.address_of(" desk.example:7001 "), ("desk.example", 7001))
        self.assertEqual(desk.address_of("[::1]:1"), ("::1", 1))
        for text in "", "desk.example", "a:b", "a:70000", "a b:1":
            self.assertRaises(Stopped, desk.address_of, text)

    def test_tokens(self):
        with tempfile.NamedTemporaryFile("w", suffix=".token") as file:
            file.write("secret\n")
            file.flush()
            self.assertEqual(desk.token_of(file.name), "secret")
        self.assertRaises(Stopped, desk.token_of, file.name)


class Shown(unittest.TestCase):
    def test_outcome_without_anything(self):
        self.assertEqual(Outcome(2, None, [], [], "").text, "mpw doesn't accept the command line")


if __name__ == "__main__":
    unittest.main()
