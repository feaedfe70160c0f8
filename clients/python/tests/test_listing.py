"""mpw-report: what it writes of a listing, and what is no listing."""
import json
import os
import subprocess
import sys
import unittest
import xml.etree.ElementTree as ElementTree

from stand_in import TOP
from test_ask import WithFiles
from test_serve import BUILT, LIMIT

REPORT = os.path.join(TOP, "clients", "python", "mpw-report")
EXAMPLES = os.path.join(TOP, "examples")
LISTING = "OK 3\nw:V:0:0:50:0:600 TOP\nw:H:1:-7:33:0:600 TOP pad\ns:V:0:50:90:0:600 TOP\n"
DECK = "tile 256\nwidth w 1/0 56\nwidth other 5/0 7\nspace s 1/0 51\n"
HOSTILE = "a|b`c*<d>&\"e</failure>"


class Listing(WithFiles):
    def report(self, *words, given="", printed=""):
        """Runs mpw-report, which has to print this: its status, and what it printed on the standard error."""
        ended = subprocess.run(
            [sys.executable, "-SB", REPORT, *words], input=given.encode("latin1"), stdout=subprocess.PIPE, stderr=subprocess.PIPE,
            cwd=self.folder, timeout=60)
        self.assertEqual(ended.stdout.decode(), printed)
        return ended.returncode, ended.stderr.decode()

    def write(self, name, text):
        with open(self.file(name), "w", encoding="ascii") as file:
            file.write(text)

    def all(self, *words, given=LISTING, printed="", status=0):
        """All three outputs: the root of the XML, the objects and the Markdown."""
        outputs = "--junit", "a.xml", "--json", "a.json", "--markdown", "a.md"
        self.assertEqual(self.report(*outputs, *words, given=given, printed=printed), (status, ""))
        return (
            ElementTree.fromstring(self.read("a.xml")), [json.loads(line) for line in self.read("a.json").splitlines()],
            self.read("a.md"))

    def test_outputs(self):
        self.write("a.deck", DECK)
        junit, objects, markdown = self.all("--deck", "a.deck", "--name", "pad ring")
        suite = junit.find("testsuite")
        self.assertEqual(suite.attrib, {"name": "pad ring", "tests": "3", "failures": "2", "errors": "0", "skipped": "0"})
        cases = suite.findall("testcase")
        self.assertEqual([case.get("name") for case in cases], ["w", "other", "s"])
        failures = [case.find("failure") for case in cases]
        self.assertEqual(failures[1], None)
        self.assertEqual(failures[0].get("message"), "2 markers, the shortest distance is 40 nm; the rule asks for 56 nm")
        self.assertEqual(failures[0].get("type"), "width")
        self.assertEqual(failures[0].text, "w:V:0:0:50:0:600 TOP\nw:H:1:-7:33:0:600 TOP pad")
        self.assertEqual(objects[1], {
            "key": "w:H:1:-7:33:0:600", "rule": "w", "axis": "H", "side": 1, "x1": -7, "x2": 33, "y0": 0, "y1": 600,
            "distance": 40, "box": [0, -7, 600, 33], "cells": ["TOP", "pad"]})
        self.assertIn("# pad ring: 3 markers\n", markdown)
        self.assertIn("| `w` | width | 2 | 0 | 40 nm | 56 nm |\n| `other` | width | 0 | 0 |  | 7 nm |\n", markdown)
        self.assertIn("| `w:H:1:-7:33:0:600` | `TOP`, `pad` |\n", markdown)

    def test_without_a_deck(self):
        self.write("listing.txt", LISTING)
        junit, _, markdown = self.all("listing.txt", given="")
        self.assertEqual([case.get("name") for case in junit.iter("testcase")], ["w", "s"])
        self.assertIn("| `s` | marker | 1 | 0 | 40 nm |  |", markdown)
        junit, objects, markdown = self.all(given="OK 0\n")
        self.assertEqual((junit.get("tests"), junit.get("failures"), objects), ("1", "0", []))
        self.assertEqual((junit.find("testsuite/testcase").attrib["name"], markdown), ("no markers", "# mpw check: 0 markers\n"))

    def test_masked(self):
        junit, objects, markdown = self.all(given="OK 3\nw:V:0:0:50:0:600 chip\nmasked w 2\nmasked s 1\n")
        messages = [failure.get("message") for failure in junit.iter("failure")]
        self.assertEqual(messages, ["1 marker, 2 masked markers, the shortest distance is 50 nm", "1 masked marker"])
        self.assertEqual(objects[1:], [{"rule": "w", "masked": 2}, {"rule": "s", "masked": 1}])
        self.assertIn("# mpw check: 1 marker, 3 masked\n", markdown)

    def test_known(self):
        """Markers of the accepted listing fail nothing, and those of them that are gone are named."""
        self.write("known.txt", "OK 2\ns:V:0:50:90:0:600 TOP\ns:V:0:0:1:0:2 TOP\n")
        self.write("a.deck", DECK)
        told = "3 markers: 1 known, 2 new; known and gone: 1\nnew: w:V:0:0:50:0:600 TOP\nnew: w:H:1:-7:33:0:600 TOP pad\ngone: s:V:0:0:1:0:2\n"
        junit, objects, markdown = self.all("--known", "known.txt", "--deck", "a.deck", printed=told, status=1)
        self.assertEqual([case.find("failure") is None for case in junit.iter("testcase")], [False, True, True])
        self.assertEqual([it["known"] for it in objects], [False, False, True])
        self.assertIn("# mpw check: 2 new markers, 1 known\n\n| Rule | Check | New | Known | Masked | Shortest | Asked for |\n|-|-|-|-|-|-|-|\n", markdown)
        self.assertIn("| `w` | width | 2 | 0 | 0 | 40 nm | 56 nm |\n", markdown)
        self.assertIn("| `s` | space | 0 | 1 | 0 |  | 51 nm |\n", markdown)

    def test_all_known(self):
        """The status is 0, with outputs or without; a masked marker isn't known, since it has no key."""
        self.write("known.txt", "# Accepted.\n" + LISTING)
        told = "3 markers: 3 known, 0 new; known and gone: 0\n"
        self.all("--known", "known.txt", printed=told)
        self.assertEqual(self.report("--known=known.txt", given=LISTING, printed=told), (0, ""))
        told = "4 markers: 1 known, 0 new, 3 masked; known and gone: 2\ngone: w:H:1:-7:33:0:600\ngone: s:V:0:50:90:0:600\n"
        given = "OK 2\nw:V:0:0:50:0:600 TOP\nmasked s 3\n"
        self.assertEqual(self.report("--known", "known.txt", given=given, printed=told), (1, ""))

    def test_known_that_is_no_listing(self):
        self.write("known.txt", "hello\n")
        for name in "known.txt", "none.txt":
            status, told = self.report("--known", name, "--json", "a.json", given=LISTING)
            self.assertEqual((status, told.startswith(f"mpw-report: {name}: "), os.path.exists(self.file("a.json"))), (4, True, False))
        self.assertEqual(self.report("--known", "known.txt", "--json", "known.txt", given=LISTING)[0], 2)

    def test_most(self):
        junit, objects, markdown = self.all("--most", "1")
        self.assertEqual(junit.find("testsuite/testcase/failure").text, "w:V:0:0:50:0:600 TOP\nand 1 more")
        self.assertEqual(len(objects), 3)
        self.assertIn("1 more aren't listed here.", markdown)
        self.assertEqual(self.report("--most", "-1", "--json", "b.json")[0], 2)

    def test_names(self):
        junit, objects, markdown = self.all("--name", HOSTILE, given=f"OK 1\n{HOSTILE}:V:0:0:50:0:600 {HOSTILE}\n")
        self.assertEqual(junit.find("testsuite/testcase").attrib, {"classname": HOSTILE, "name": HOSTILE})
        self.assertEqual(junit.find("testsuite/testcase/failure").text, f"{HOSTILE}:V:0:0:50:0:600 {HOSTILE}")
        self.assertEqual(objects[0]["cells"], [HOSTILE])
        self.assertEqual([line.count("|") for line in markdown.splitlines() if line.startswith("|")], [7, 7, 7, 3, 3, 3])
        self.assertNotIn("<d>", markdown.partition("\n")[2])

    def test_no_listing(self):
        texts = {
            "": "line 1", "OK\n": "line 1", "OK 1\n": "0 of 1", "OK 1\nhello\n": "line 2", LISTING[:-23]: "2 of 3", LISTING + LISTING: "line 5",
            "w 1\nall 1\n": "line 1", "OK 1\nw:V:0:0:50:0:600\n": "line 2", "OK 1\nmasked w x\n": "line 2", "OK 2\n" + "\xff\n": "line 2"}
        for text, word in texts.items():
            with self.subTest(text):
                status, told = self.report("--junit", "a.xml", "--json", "a.json", "--markdown", "a.md", given=text)
                self.assertEqual(status, 4)
                self.assertIn(word, told)
                self.assertEqual([name for name in os.listdir(self.folder) if name.startswith(("a.", ".mpw"))], [])

    def test_command_lines(self):
        self.write("listing.txt", LISTING)
        for words in ["listing.txt"], ["--json", "listing.txt", "listing.txt"], ["--json", "a", "--junit", "./a"], ["--name", "a\nb", "--json", "a"]:
            self.assertEqual(self.report(*words)[0], 2, words)
        self.assertEqual(self.report("--json", "a", "none.txt")[0], 4)
        self.assertEqual(self.report("--json", "none/a", "listing.txt")[0], 4)
        self.assertEqual(self.read("listing.txt"), LISTING)

    @unittest.skipUnless(os.access(BUILT[1], os.X_OK), f"{BUILT[1]} isn't built")
    def test_of_the_program(self):
        """What mpw check prints of the examples."""
        for name, expected in ("pad-ring", 5), ("via-farm", 2), ("orientations", 16):
            deck = os.path.join(EXAMPLES, f"{name}.deck")
            words = [os.path.join(TOP, "mpw"), "check", "--deck", deck, "--top", "TOP", os.path.join(EXAMPLES, f"{name}.gds")]
            printed = subprocess.run(words, stdout=subprocess.PIPE, stderr=subprocess.DEVNULL, timeout=LIMIT).stdout.decode()
            _, objects, _ = self.all("--deck", deck, given=printed)
            self.assertEqual([f"{it['key']} TOP" for it in objects], printed.splitlines()[1:])
            self.assertEqual(len(objects), expected)


if __name__ == "__main__":
    unittest.main()
