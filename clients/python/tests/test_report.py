"""mpw_report: the form of mpw check --report, with waivers as tags; and that a file is written whole or not at all."""
import os
import shutil
import signal
import stat
import subprocess
import sys
import tempfile
import time
import unittest
import xml.etree.ElementTree as ElementTree
from unittest import mock

from mpw_desk import Axis, Key, Marker, Markers, Masked, Waiver
from mpw_files import FileFault, write_whole
from mpw_report import report_of, rules_of
from stand_in import TOP

sys.path.append(os.path.join(TOP, "scripts"))

import golden  # noqa: E402

HOSTILE = "a'b\\c<d>&\"e</value>--><!--,#"
KEYS = [Key("w", Axis.V, 0, 0, 50, 0, 600), Key(HOSTILE, Axis.H, 1, -5, 1000, -1, 2)]


class Report(unittest.TestCase):
    def test_as_the_program_writes_it(self):
        deck, rest = golden.table("gate_texts", "stdin", "report").split("--\n")
        top, *lines = rest.rstrip("\n").split("\n")
        rules, markers = [rule for rule, _ in rules_of(deck)], []
        # The program writes them by rule, as a listing has them.
        words = [line.split(" ") for line in lines if line[0].isdecimal()]
        for rule, axis, *numbers in sorted(words, key=lambda it: int(it[0])):
            if int(rule) < len(rules):
                markers.append(Marker(Key(rules[int(rule)], Axis(axis), *map(int, numbers)), (top,)))
        # A full report follows.
        expected = golden.table("gate_texts", "stdout", "report").partition("</report-database>\n")
        expected = "".join(expected[:2]).replace("<generator>mpw check<", "<generator>mpw-ask<")
        self.assertEqual(report_of(Markers(markers, []), [], deck, top), expected)

    def test_names_and_tags(self):
        markers = Markers([Marker(key, (HOSTILE,)) for key in KEYS], [Masked("other", 3)])
        waivers = [Waiver(KEYS[0], "ann", None), Waiver(KEYS[1], HOSTILE, "dora")]
        report = ElementTree.fromstring(report_of(markers, waivers, top=HOSTILE))
        self.assertEqual([it.text for it in report.findall("categories/category/name")], ["w", HOSTILE, "other"])
        names = ["asked by ann", "waived", f"asked by {HOSTILE}", "signed by dora"]
        self.assertEqual([it.text for it in report.findall("tags/tag/name")], names)
        self.assertEqual({it.text for it in report.iter("cell") if len(it) == 0}, {HOSTILE})
        quoted = "'" + HOSTILE.replace("\\", "\\\\").replace("'", "\\'") + "'"
        self.assertEqual([it.text for it in report.findall("items/item/category")], ["'w'", quoted])
        tags = [it.text for it in report.findall("items/item/tags")]
        self.assertEqual(tags, ["'asked by ann'", f"waived,'asked by {quoted[1:]},'signed by dora'"])

    @unittest.skipUnless(shutil.which("klayout"), "KLayout isn't installed")
    def test_as_klayout_reads_it(self):
        markers, waivers = Markers([Marker(key, ("c",)) for key in KEYS], []), [Waiver(KEYS[1], HOSTILE, "dora")]
        with tempfile.TemporaryDirectory() as folder:
            report, script = os.path.join(folder, "a.lyrdb"), os.path.join(folder, "a.rb")
            with open(report, "w", encoding="ascii") as file:
                file.write(report_of(markers, waivers))
            with open(script, "w", encoding="ascii") as file:
                file.write("d = RBA::ReportDatabase.new('r')\nd.load($r)\n"
                           "d.each_item { |i| puts [d.category_by_id(i.category_id).name, i.tags_str].join(' ') }\n")
            words = ["klayout", "-b", "-zz", "-r", script, "-rd", f"r={report}"]
            offscreen = {**os.environ, "QT_QPA_PLATFORM": "offscreen"}
            told = subprocess.run(words, stdout=subprocess.PIPE, env=offscreen, check=True).stdout.decode()
        quoted = HOSTILE.replace("\\", "\\\\").replace("'", "\\'")
        self.assertEqual(told.splitlines(), ["w ", f"{HOSTILE} waived,'asked by {quoted}','signed by dora'"])


class Whole(unittest.TestCase):
    """An existing file stays whole where writing fails, and nothing is left beside it."""

    def setUp(self):
        self.folder = tempfile.mkdtemp()
        self.addCleanup(shutil.rmtree, self.folder)
        self.path = os.path.join(self.folder, "out.lyrdb")

    def content(self):
        with open(self.path, encoding="ascii") as file:
            return file.read(), os.listdir(self.folder)

    def test_written(self):
        write_whole(self.path, "old\n")
        os.chmod(self.path, 0o640)
        write_whole(self.path, "new\n")
        self.assertEqual(self.content(), ("new\n", ["out.lyrdb"]))
        self.assertEqual(stat.S_IMODE(os.stat(self.path).st_mode), 0o640)

    def test_kept(self):
        write_whole(self.path, "old\n")
        for broken in "os.replace", "os.fsync":
            with mock.patch(broken, side_effect=OSError(28, "No space left on device")):
                self.assertRaises(FileFault, write_whole, self.path, "new\n")
            self.assertEqual(self.content(), ("old\n", ["out.lyrdb"]))

    def test_through_a_link(self):
        """A link stays, and its file is written; one that leads to no file is refused."""
        link = os.path.join(self.folder, "link")
        os.symlink(self.path, link)
        with self.assertRaisesRegex(FileFault, "link: it is a link to a file that isn't there"):
            write_whole(link, "new\n")
        self.assertEqual(os.listdir(self.folder), ["link"])
        write_whole(self.path, "old\n")
        write_whole(link, "new\n")
        self.assertTrue(os.path.islink(link))
        self.assertEqual(self.content()[0], "new\n")

    @unittest.skipUnless(os.name == "posix", "there are no such signals here")
    def test_stopped(self):
        """A signal that ends the program leaves no half file, and nohup goes on to ignore HUP."""
        words = [sys.executable, "-SB", os.path.join(TOP, "clients", "python", "mpw-report"), "--json", self.path]
        for number, before, status in (signal.SIGTERM, [], 143), (signal.SIGHUP, [], 129), (signal.SIGHUP, ["nohup"], 4):
            with subprocess.Popen([*before, *words], stdin=subprocess.PIPE, stdout=subprocess.DEVNULL, stderr=subprocess.DEVNULL) as process:
                while not os.listdir(self.folder):
                    time.sleep(0.01)
                process.send_signal(number)
                process.communicate(timeout=60)
            self.assertEqual((process.returncode, os.listdir(self.folder)), (status, []))

    def test_leftovers(self):
        """What a killed program left goes with the next file of the same path."""
        with subprocess.Popen(["true"]) as process:
            process.wait(60)
        names = [f"{name}.{number}.new" for name in ("out.lyrdb", "other") for number in (process.pid, os.getpid(), os.getppid(), "x")]
        for name in names:
            open(os.path.join(self.folder, name), "w", encoding="ascii").close()
        write_whole(self.path, "new\n")
        self.assertEqual(set(names) - set(os.listdir(self.folder)), {f"out.lyrdb.{number}.new" for number in (process.pid, os.getpid())})
        self.assertEqual(self.content()[0], "new\n")

    def test_no_file(self):
        self.assertRaises(FileFault, write_whole, self.folder, "new\n")
        self.assertRaises(FileFault, write_whole, os.path.join(self.folder, "none", "out"), "new\n")
        self.assertRaises(FileFault, write_whole, "/dev/null", "new\n")


if __name__ == "__main__":
    unittest.main()
