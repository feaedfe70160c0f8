"""The package in KLayout: what it exports, its entries, and a desk that is the model."""
import os
import re
import subprocess
import sys
import unittest

from klayouts import CHECK, HAS_CHECK, HAS_KLAYOUT, HAS_XVFB, TOP, InKLayout, display
from mpw_desk import Axis, Desk
from mpw_klayout.deck import translated
from stand_in import StandIn, listening

sys.path.append(os.path.join(TOP, "examples"))

from make import box, library, placed, structure  # noqa: E402

NAMES = ["TOP", "my cell", "a-b.c", "Zelle_ü", "x" * 300, "A$1", "it's<&>"]
BARS = os.path.join(TOP, "examples", "two-bars.gds")
OUTSIDE = os.path.join(TOP, "examples", "outside-names.gds")
DECK = b"tile 256\nwidth w 1/0 56\nspace s 1/0 51\n"
SCRIPT = b"input(1, 0).width(10).output('w')\n"
WIDTH = "(0,0;0,0.6)|(0.05,0.6;0.05,0)"
SPACE = "(0.05,0;0.05,0.6)|(0.09,0.6;0.09,0)"
LOGIN = {"user": "ann", "token-file": "", "roles": "pads"}


@HAS_KLAYOUT
@HAS_CHECK
class Export(InKLayout):
    def test_export(self):
        values = {"folder": self.folder, "program": CHECK, "seed": 1, "units": [1, 5, 1000], "smallest": [3, 25, 100, 999],
                  "names": NAMES}
        found = self.ran("in_export.py", values, "-b")
        for unit, compared in found["compared"].items():
            self.assertEqual((compared["status"], compared["differing"]), (1, []), unit)
            self.assertGreater(compared["steps"], 200)
        self.assertEqual(set(found["smallest"].values()), {""})
        for dbu, text in found["refused"].items():
            self.assertIn("The layout's database unit is", text, dbu)
        for name, (top, text, count) in found["names"].items():
            self.assertEqual((text, count), ("1 marker: width 1", 10), name)  # pair steps
            self.assertRegex(top, "[!-~]{1,255}")
        notes, checked = found["layers"]
        self.assertEqual(len(notes), 2)
        self.assertIn("layer drawn isn't exported", notes[0])
        self.assertIn("layer 70000/0 isn't exported", notes[1])
        self.assertIn("no rule names layer 40000/65535, which has 1 shapes", checked)
        self.assertEqual(found["kinds"][0].split(" ")[1:2], ["markers:"])
        self.check_faults(found["faults"])

    def check_faults(self, found):
        self.assertIn("roundpath at byte", found["text"])
        codes = sorted(line.split(" ")[0] for line in found["faults"])
        self.assertEqual(codes, ["notmanhattan", "roundpath"])
        self.assertEqual(len(found["items"]), 2)


@HAS_KLAYOUT
class Package(InKLayout):
    def test_installed_by_the_package_manager(self):
        printed = self.install()
        salt = self.file("home/salt/mpw")
        self.assertTrue(os.path.exists(os.path.join(salt, "grain.xml")), printed)
        client = os.path.join(TOP, "clients", "python")
        modules = sorted(name for name in os.listdir(os.path.join(client, "mpw_desk")) if name.endswith(".py"))
        for name in ["mpw_report.py", *(os.path.join("mpw_desk", module) for module in modules)]:
            self.assertFalse(os.path.islink(os.path.join(salt, "python", name)))
            with open(os.path.join(salt, "python", name), "rb") as copy, open(os.path.join(client, name), "rb") as ours:
                self.assertEqual(copy.read(), ours.read())


@HAS_KLAYOUT
@HAS_XVFB
@HAS_CHECK
class Windows(InKLayout):
    def test_menu_and_windows(self):
        """Chooses the entries of the menu, enters settings, and closes the window with the notes."""
        self.link()
        os.mkdir(self.file("home/drc"))
        values = {
            "layout": BARS, "deck": self.file("a.deck", DECK + b"width none 9/0 10\n"), "program": CHECK, "picture": "",
            "script": self.file("home/drc/s.drc", SCRIPT), "desk": ["localhost:1", "ann", "/nowhere", "pads", "pad"]}
        with display() as environment:
            found = self.ran("in_window.py", values, **environment)
        self.assertEqual(found["menu"], [
            "Check with mpw", "Deck from this DRC script", "Submit to a desk", "Markers from a desk", "Settings"])
        settings, notes, form, missing = found["seen"]
        self.assertEqual(settings, ["Settings of mpw", ["Program mpw", "Deck"], [CHECK, values["deck"]], []])
        self.assertEqual(notes, ["mpw", ["TOP: 2 markers: w 1, s 1"], [], ["rule none looks at nothing: layer 9/0 has no shapes"]])
        self.assertEqual(form[2], values["desk"])
        self.assertEqual(missing[1], ["/nowhere: No such file or directory"])
        self.assertEqual((found["items"], found["script"]), (2, values["script"]))

    @unittest.skipUnless(os.environ.get("MPW_PICTURE"), "MPW_PICTURE names no picture to write")
    def test_picture(self):
        """Draws the check of an example."""
        self.link()
        example = os.path.join(TOP, "examples", "orientations")
        values = {"layout": f"{example}.gds", "deck": f"{example}.deck", "program": CHECK, "picture": os.environ["MPW_PICTURE"],
                  "zoom": [-1, -4.5, 9, 3]}
        with display() as environment:
            self.ran("in_window.py", values, **environment)


@HAS_KLAYOUT
class Actions(InKLayout):
    def setUp(self):
        super().setUp()
        self.link()

    def scenario(self, name, **values):
        found = self.ran("in_actions.py", {"scenario": name, "program": CHECK, **values}, "-z")
        return found["said"], found["result"]

    @HAS_CHECK
    def test_checks(self):
        coarse = self.file("coarse.gds", library(
            structure("BAR", box(1, 0, 0, 10, 120), box(1, 18, 0, 30, 120), box(5, 0, 0, 1, 1)),
            structure("ABOVE", placed("BAR", 1000, 0))))
        named, faulty = self.file("named.oas"), self.file("faulty.gds")
        self.write_layouts(coarse, named, faulty)
        files = [[BARS, ""], [coarse, "BAR"], [named, ""], [faulty, ""], [OUTSIDE, ""]]
        decks = {"deck": self.file("a.deck", DECK), "clean": self.file("b.deck", b"tile 256\nwidth w 1/0 1\n")}
        said, (bars, below, blank, faults, outside, counts) = self.scenario("checks", files=files, **decks)
        self.assertEqual(bars, [["mpw TOP.lyrdb", BARS, [["w", "TOP", "", [WIDTH]], ["s", "TOP", "", [SPACE]]]]])
        self.assertEqual(below, [["mpw BAR.lyrdb", coarse, [["w", "BAR", "", [WIDTH]], ["s", "BAR", "", [SPACE]]]]])
        self.assertEqual(blank, [["mpw my_cell.lyrdb", named, [["w", "my*cell", "", [WIDTH]]]]])
        (name, original, ((*item, (text, place)),)), = faults
        self.assertEqual([name, original, *item, place], ["mpw TOP.lyrdb", faulty, "faults of elements", "TOP", "", "(0,0;0.1,0.1)"])
        self.assertRegex(text, "^notmanhattan at byte [0-9]+ in TOP$")
        self.assertEqual(outside, [])
        # The last check has no markers, and those of the check before are gone.
        self.assertEqual((counts, said.pop()), ([1, 0], ["TOP: No markers", ""]))
        notes, fault, missing = said[::2]
        self.assertEqual(said, [it for it in (notes, fault, missing) for _ in range(2)])
        self.assertEqual(notes, ["BAR: 2 markers: w 1, s 1", "no rule names layer 5/0, which has 1 shapes"])
        self.assertRegex(fault[0], "^TOP: notmanhattan at byte [0-9]+ in TOP: an edge is neither horizontal nor vertical")
        self.assertRegex(fault[1], "^notmanhattan at byte [0-9]+ in TOP, layer 1/0, at 0,0$")
        self.assertIn("structures that the library doesn't have", missing[0])

    def write_layouts(self, coarse, named="", faulty=""):
        """Gives a file the unit 5 nm, and writes a cell whose name GDSII hasn't, and one with an edge at 45 degrees."""
        script = [
            "import pya", "l = pya.Layout()", f"l.read({coarse!r})", "l.dbu = 0.005", f"l.write({coarse!r})", "l = pya.Layout()",
            "l.create_cell('my*cell').shapes(l.layer(1, 0)).insert(pya.Box(0, 0, 50, 600))", f"l.write({named!r}) if {named!r} else None",
            "l = pya.Layout()", "points = [pya.Point(0, 0), pya.Point(0, 100), pya.Point(100, 0)]",
            "l.create_cell('TOP').shapes(l.layer(1, 0)).insert(pya.Polygon(points))", f"l.write({faulty!r}) if {faulty!r} else None", ""]
        self.klayout("-b", "-r", self.file("write.py", "\n".join(script)))

    @HAS_CHECK
    def test_refusals(self):
        said, count = self.scenario("refusals", files=[[BARS, ""]])
        texts = [text for text, _ in said]
        self.assertEqual(count, 0)
        for found, expected in zip(texts, (
                "No layout is open", "No layout is open", "No layout is open", "/nowhere/mpw: there is no such program",
                "No deck is chosen", "The layout's database unit is 0.5 nm", "The layout's database unit is 0.5 nm")):
            self.assertIn(expected, found)
        self.assertEqual(len(texts), 7)

    def test_deck(self):
        script = b"m1 = input(1, 0)\nm1.width(10, projection).output('w')\nm1.notch(10).output('n')\n"
        target = self.file("a.deck")
        said, deck = self.scenario("deck", script=self.file("a.drc", script), target=target)
        self.assertEqual(deck, target)
        with open(target, encoding="ascii") as file:
            self.assertEqual(file.read(), "tile 50000\nwidth w 1/0 50\n")
        (text, details), = said
        self.assertEqual(text, "1 rule, 1 line left out")
        self.assertIn("line 3 left out: notch", details)

    def test_desk(self):
        """Submits from a layout of 5 nm, and shows the markers of the run in the cell's coordinates."""
        coarse = self.file("coarse.gds", library(structure("PAD", box(1, 0, 0, 10, 120), box(1, 18, 0, 30, 120))))
        self.write_layouts(coarse)
        stand_in = StandIn()
        with listening(stand_in.serve) as port, Desk.connect("127.0.0.1", port) as desk:
            self.begin(desk)
            login = {**LOGIN, "desk": f"127.0.0.1:{port}", "token-file": self.file("ann.token", b"ann\n")}
            os.chmod(login["token-file"], 0o600)
            forms = [{**login, "cell": "pad"}, {**login, "cell": "other"}, {**login, "cell": "pad", "roles": "officer"}, {},
                     {**login, "cell": "pad", "desk": "127.0.0.1:1"}]
            said, _ = self.scenario("submit", file=[coarse, "PAD"], forms=forms)
            self.assertEqual([text for text, _ in said[:2]], [
                "PAD is version 1 of pad on the desk.", "The desk denied it: permission submit other"])
            self.assertIn("The desk denied it", said[2][0])
            self.assertIn("no connection", said[3][0])
            self.assertEqual([str(shape.points) for shape in desk.shapes("pad")][0], "((0, 0), (0, 600), (50, 600), (50, 0))")
            key = self.run_of(desk)
            placement = "place pad a R90 -10000 20000"
            forms = [{**login, "only-cell": "", "placement": ""}, {**login, "only-cell": "pad", "placement": placement},
                     {**login, "only-cell": "nobody", "placement": "R0 0 0"}, {**login, "only-cell": "", "placement": "R45 0 0"}]
            said, (wafer, cell, none, _) = self.scenario("markers", file=[coarse, "PAD"], forms=forms)
        self.assertEqual([text for text, _ in said[:3]], [f"Run: finished 1. Markers that you may see in full: {n}." for n in (4, 2, 0)])
        self.assertIn("R45 0 0: no placement", said[3][0])
        self.assertEqual(none[0][2], [])
        self.assertIn(["w", "PAD", "'asked by root'", ["(-10.6,20;-10,20)|(-10,20.05;-10.6,20.05)", f"{key} pad"]], wafer[0][2])
        # The pair comes back as the cell has it, and the text is still the desk's key.
        self.assertEqual(cell[0][2][0], ["w", "PAD", "'asked by root'", [WIDTH, f"{key} pad"]])

    def begin(self, desk):
        """The officer lets ann submit the cell pad."""
        desk.open("root", "abc")
        desk.activate("officer")
        desk.adduser("ann", "ann")
        for role in "pads", "shuttle":
            desk.addrole(role)
        for operation in "submit", "read", "place":
            desk.grant(operation, "pad", "pads" if operation != "place" else "shuttle")
        for operation in "deck", "run", "waive":
            desk.grant(operation, "desk", "shuttle")
        desk.grant("read", "pad", "shuttle")
        desk.assign("ann", "pads")
        desk.assign("root", "shuttle")
        desk.activate("shuttle")

    def run_of(self, desk):
        """A run of the cell, turned; the key of the marker whose waiver is asked for."""
        desk.deck(DECK.replace(b"256", b"8192"))
        desk.place("pad", "a", "R90", -10000, 20000)
        desk.place("pad", "b", "M180", 70000, 0)
        desk.run()
        marker = next(it for it in desk.markers().full if it.key.rule == "w" and it.key.axis is Axis.H)
        desk.waive(marker)
        return marker.key


@HAS_KLAYOUT
@HAS_CHECK
class Translated(InKLayout):
    def test_klayout_finds_the_same_under_the_script(self):
        """A DRC script of KLayout's, and mpw under the deck that is made of it, have the same edges."""
        layout = os.path.join(TOP, "examples", "orientations.gds")
        script = "\n".join([
            f"source({layout!r})", f"report('r', {self.file('drc.lyrdb')!r})", "m1, via1 = input(1, 0), input(11, 0)", "m1 = input(1, 0)",
            "via1 = input('11/0')", "m1.width(101, projection).output('w')", "m1.space(60.nm, projection, transparent).output('s')",
            "found = m1.enclosing(via1, 0.03, projection, transparent)", "found.output('e')",
            "via1.sep(input(1), 0.011.um, projection, transparent).output('v')", ""])
        made = translated(script, 1)
        self.assertEqual((made.left_out, len(made.rules)), ([], 4))
        self.klayout("-b", "-r", self.file("a.drc", script))
        words = [CHECK, "check", "--deck", self.file("a.deck", made.deck), "--top", "TOP", "--report", self.file("mpw.lyrdb"), layout]
        subprocess.run(words, stdout=subprocess.DEVNULL, stderr=subprocess.DEVNULL, check=False)
        with open(self.file("drc.lyrdb"), encoding="utf-8") as theirs, open(self.file("mpw.lyrdb"), encoding="utf-8") as ours:
            found = self.values(ours.read())
            self.assertEqual(self.values(theirs.read()), found)
        self.assertGreater(len(found), 30)

    def values(self, report):
        """The pairs of edges of a report, each as its points: edges and points may be in another order."""
        return sorted(sorted(re.findall(r"[-0-9.]+,[-0-9.]+", pair)) for pair in re.findall(r"edge-pair: ([^<]+)<", report))


if __name__ == "__main__":
    unittest.main()
