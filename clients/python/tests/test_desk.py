"""mpw_desk: each request with its parsed reply, over a desk made of the model; and words that aren't sent."""
import inspect
import os
import re
import shutil
import socket
import subprocess
import sys
import tempfile
import unittest

import layouts
import mpw_desk
from mpw_desk import (
    Axis, BadWord, Boundary, Cell, Denied, Desk, Key, Marker, Masked, NotFinished, Operation, Orientation, Path, Refused,
    Ruling, State, Status, TrailRow, Verdict, Waiver, Whoami)
from stand_in import OFFICER, TOKEN, TOP, StandIn, listening

GRANTS = """
submit pad pads
read pad pads
sign desk pads
submit chip chips
read chip chips
use pad chips
place chip shuttle
deck desk shuttle
run desk shuttle
read pad shuttle
read chip shuttle
waive desk shuttle
sign desk shuttle
read pad quality
read chip quality
sign desk quality
verdict desk quality
audit desk officer
"""
SPACE = Key("sp", Axis.V, 0, 10, 20, 0, 100)


def filled(desk):
    """A desk with two firms, a shuttle and a signer; the officer's session is closed again."""
    desk.open(OFFICER, TOKEN)
    desk.activate("officer")
    for user, role in ("ann", "pads"), ("bob", "chips"), ("carl", "shuttle"), ("dora", "quality"):
        desk.adduser(user, f"token-of-{user}")
        desk.addrole(role)
        desk.assign(user, role)
    for line in GRANTS.strip().split("\n"):
        desk.grant(*line.split(" "))
    desk.close()


def enter(desk, user, *roles):
    """A session of a user with these roles."""
    desk.open(user, f"token-of-{user}")
    for role in roles:
        desk.activate(role)


class WithStandIn(unittest.TestCase):
    """A desk with a connection to it."""

    def setUp(self):
        listener = listening(StandIn().serve)
        self.port = listener.__enter__()
        self.addCleanup(listener.__exit__, None, None, None)
        self.desk = Desk.connect("127.0.0.1", self.port, reply_limit=20)
        self.addCleanup(self.desk.hang_up)

    def refused(self, code, word, call, *words):
        with self.assertRaises(Refused) as caught:
            call(*words)
        self.assertEqual((caught.exception.code, caught.exception.word), (code, word))
        return caught.exception.rest

    def denied(self, words, call, *arguments):
        with self.assertRaises(Denied) as caught:
            call(*arguments)
        self.assertEqual(caught.exception.words, tuple(words.split(" ")))


class Requests(WithStandIn):
    def test_sessions(self):
        desk = self.desk
        self.denied("session", desk.whoami)
        self.denied("login", desk.open, OFFICER, "abd")
        desk.open(OFFICER, TOKEN)
        self.refused(30, "opened", desk.open, OFFICER, TOKEN)
        self.assertEqual(desk.whoami(), Whoami("root", (), ("officer",)))
        desk.activate("officer")
        self.assertEqual(desk.whoami(), Whoami("root", ("officer",), ("officer",)))
        self.denied("permission activate nobody", desk.activate, "nobody")
        desk.drop("officer")
        self.refused(32, "unknown", desk.drop, "officer")
        self.denied("permission admin desk", desk.addrole, "pads")
        desk.close()
        self.denied("session", desk.close)

    def test_administration(self):
        desk = self.desk
        desk.open(OFFICER, TOKEN)
        desk.activate("officer")
        desk.adduser("ann", "-")
        for role in "high", "low", "other":
            desk.addrole(role)
        desk.assign("ann", "high")
        self.refused(33, "known", desk.assign, "ann", "high")
        desk.inherit("high", "low")
        self.refused(36, "loop", desk.inherit, "low", "high")
        desk.ssd("firms", 2, ["low", "other"])
        desk.dsd("duties", 2, ("low", "other"))
        self.denied("ssd firms", desk.assign, "ann", "other")
        self.refused(35, "used", desk.delrole, "other")
        desk.unssd("firms")
        desk.assign("ann", "other")
        desk.grant(Operation.READ, "pad", "low")
        desk.grant("audit", "desk", "low")
        desk.revoke(Operation.READ, "pad", "low")
        self.refused(32, "unknown", desk.revoke, "read", "pad", "low")
        self.administer_back(desk)

    def administer_back(self, desk):
        desk.close()
        desk.open("ann", "-")
        desk.activate("high")
        self.denied("dsd duties", desk.activate, "other")
        self.assertEqual(desk.whoami(), Whoami("ann", ("high",), ("high", "low", "other")))
        desk.close()
        desk.open(OFFICER, TOKEN)
        desk.activate("officer")
        desk.undsd("duties")
        desk.uninherit("high", "low")
        desk.deassign("ann", "high")
        desk.delrole("other")
        desk.deluser("ann")
        self.refused(32, "unknown", desk.deluser, "ann")

    def test_cells_and_shapes(self):
        desk = self.desk
        filled(desk)
        enter(desk, "ann", "pads")
        with tempfile.TemporaryDirectory() as folder:
            file = os.path.join(folder, "pad.gds")
            with open(file, "wb") as written:
                written.write(layouts.pad())
            self.assertEqual(desk.submit("pad", "PAD", file), 1)
            self.assertEqual(desk.submit("pad", "PAD", layouts.pad()), 2)
            self.assertRaises(FileNotFoundError, desk.submit, "pad", "PAD", os.path.join(folder, "none.gds"))
        place = self.refused(1, "short", desk.submit, "pad", "PAD", layouts.pad()[:-2])
        self.assertEqual(place, str(len(layouts.pad()) - 4))
        self.refused(20, "notop", desk.submit, "pad", "NONE", layouts.pad())
        self.assertEqual(desk.cells(), [Cell("pad", 2, "ann")])
        box = ((0, 0), (10, 0), (10, 100), (0, 100))
        path = Path("pad", 2, 7, 0, 20, 5, -10, ((0, 300), (200, 300), (200, 500)))
        self.assertEqual(desk.shapes("pad"), [Boundary("pad", 2, 1, 0, box), path])
        self.denied("permission read chip", desk.shapes, "chip")

    def test_run_and_sign_off(self):
        desk = self.desk
        filled(desk)
        enter(desk, "ann", "pads")
        desk.submit("pad", "PAD", layouts.pad())
        self.refused(43, "notfinished", desk.markers)
        desk.close()
        enter(desk, "bob", "chips")
        desk.submit("chip", "CHIP", layouts.chip())
        desk.close()
        enter(desk, "carl", "shuttle")
        self.place_and_run(desk)
        self.assertEqual(desk.markers(), ([Marker(SPACE, ("chip", "pad"))], []))
        desk.waive(SPACE)
        self.assertEqual(desk.waivers(), [Waiver(SPACE, "carl", None)])
        self.denied("asker", desk.sign, str(SPACE))
        desk.close()
        enter(desk, "bob", "chips")
        self.assertEqual(desk.markers(), ([], [Masked("sp", 1)]))
        self.assertEqual(desk.waivers(), [])
        desk.close()
        self.sign(desk)

    def place_and_run(self, desk):
        self.assertEqual(desk.status(), Status(State.IDLE))
        self.assertRaises(NotFinished, desk.wait)
        self.assertEqual(desk.place("chip", "c1", Orientation.R90, -5, 7), 1)
        desk.unplace("chip", "c1")
        self.assertEqual(desk.place("chip", "c1", "R0", 0, 0), 1)
        self.refused(38, "nodeck", desk.run)
        self.assertEqual(self.refused(51, "word", desk.deck, "tile 256\nspace sp 1/0\n"), "2")
        desk.deck("tile 256\nspace sp 1/0 11\n")
        desk.deck(b"tile 256\nspace sp 1/0 11")
        self.assertEqual(desk.run(), 1)
        self.refused(31, "norun", desk.cancel)
        self.assertEqual(desk.status(), Status(State.FINISHED, 1))
        self.assertEqual(desk.wait(), Status(State.FINISHED, 1))

    def sign(self, desk):
        enter(desk, "dora", "quality")
        self.assertEqual(desk.verdict(), Verdict(Ruling.OPEN, 1))
        (waiver,) = desk.waivers()
        desk.sign(waiver)
        self.assertEqual(desk.waivers(), [Waiver(SPACE, "carl", "dora")])
        self.assertEqual(desk.verdict(), Verdict(Ruling.CLEAN))
        self.refused(44, "marker", desk.sign, "a:b:V:0:0:0:0:0")
        desk.close()
        desk.open(OFFICER, TOKEN)
        desk.activate("officer")
        trail = desk.trail()
        self.assertEqual(trail[0], TrailRow(1, "root", "open", "root", "OK 0"))
        self.assertIn(("carl", "sign", str(SPACE), "DENIED asker"), [row[1:] for row in trail])
        self.assertEqual([row.number for row in trail], list(range(1, len(trail) + 1)))

    def test_hostile_names(self):
        desk, hostile = self.desk, 'a,"b</script><!--&\\'
        desk.open(OFFICER, TOKEN)
        desk.activate("officer")
        desk.adduser(hostile, hostile)
        desk.grant("audit", "desk", "officer")
        desk.grant("submit", hostile, "officer")
        desk.grant("read", hostile, "officer")
        desk.submit(hostile, "PAD", layouts.pad())
        self.assertEqual(desk.cells(), [Cell(hostile, 1, "root")])
        self.assertEqual({shape.cell for shape in desk.shapes(hostile)}, {hostile})
        self.assertEqual(desk.trail()[2], TrailRow(3, "root", "adduser", hostile, "OK 0"))

    def test_each_request_has_its_method(self):
        with open(os.path.join(TOP, "docs", "requests.md"), encoding="utf-8") as file:
            forms = re.findall(r"^\| `([a-z ]+?)(?: \.\.)?` \| .* \| OK ", file.read(), re.M)
        self.assertGreater(len(forms), 30)
        for verb, *words in map(str.split, forms):
            count = 1 + len(words) - (verb in ("ssd", "dsd"))
            self.assertEqual(len(inspect.signature(getattr(Desk, verb)).parameters), count, verb)


class Words(unittest.TestCase):
    """What isn't sent: the other end has to get nothing of it."""

    def setUp(self):
        ours, self.its = socket.socketpair()
        self.desk = Desk(mpw_desk.Channel(ours), 5, 5)
        self.addCleanup(self.its.close)
        self.addCleanup(self.desk.hang_up)

    def test_words_that_would_break_the_line(self):
        desk, key = self.desk, "sp:V:0:10:20:0:100"
        for word in "", " ", "a b", "a\nclose", "a\r", "\t", "-", "\u00e9", "x" * 256, None, 3:
            for call in (
                    lambda: desk.open(word, "abc"), lambda: desk.activate(word), lambda: desk.submit(word, "T", b""),
                    lambda: desk.submit("c", word, b""), lambda: desk.place("c", word, "R0", 0, 0),
                    lambda: desk.grant("read", word, "r"), lambda: desk.ssd("s", 2, ["r", word]),
                    lambda: desk.waive(word)):
                self.assertRaises(BadWord, call)
        for word in "", "a b", "a\nclose", "x" * 256:
            self.assertRaises(BadWord, desk.open, "ann", word)
            self.assertRaises(BadWord, desk.adduser, "ann", word)
        for word in key + " x", key + "\nclose", "V:0:1:2:3:4", "sp:V:2:1:2:3:4", "sp:X:0:1:2:3:4", "sp:V:0:1:2:3:+4":
            self.assertRaises(BadWord, desk.sign, word)
        self.nothing_came()

    def test_other_arguments(self):
        desk = self.desk
        self.assertRaises(BadWord, desk.grant, "admin", "pad", "r")
        self.assertRaises(ValueError, desk.grant, "steal", "pad", "r")
        self.assertRaises(ValueError, desk.place, "c", "l", "R45", 0, 0)
        self.assertRaises(TypeError, desk.place, "c", "l", "R0", 0.5, 0)
        self.assertRaises(BadWord, desk.submit, "c", "t", bytes((1 << 24) + 1))
        for line in (
                "submit c", "submit c t 4", "submit c\tt t", "submit - t", "submit  t", "deck 4", "cells", "deck ", " deck"):
            self.assertRaises(BadWord, desk.tell, line, b"OK 0\nclose\n")
        self.assertRaises(BadWord, desk.tell, "submit c t 4")
        self.assertRaises(BadWord, desk.tell, "deck 4")
        self.assertRaises(BadWord, desk.tell, "cells\nclose")
        self.assertRaises(BadWord, desk.tell, "x" * 4097)
        self.assertRaises(BadWord, desk.ssd, "s", 2, ["r" * 250] * 20)
        self.assertRaises(BadWord, desk.ask, "cells", "a b")
        self.nothing_came()

    def test_no_error_shows_a_token(self):
        desk = self.desk
        for call in (
                lambda: desk.open("ann", "secret token"), lambda: desk.ask("open", "ann", "secret token"),
                lambda: desk.tell("open ann secret\nclose"), lambda: desk.tell("open ann secret" + "x" * 4096)):
            with self.assertRaises(BadWord) as caught:
                call()
            self.assertNotIn("secret", str(caught.exception))

    def nothing_came(self):
        self.its.setblocking(False)
        self.assertRaises(BlockingIOError, self.its.recv, 1)


class Package(unittest.TestCase):
    def test_by_itself(self):
        """The folder needs no other file, and has each name that it lists."""
        with tempfile.TemporaryDirectory() as folder:
            shutil.copytree(os.path.dirname(mpw_desk.__file__), os.path.join(folder, "mpw_desk"))
            program = "from mpw_desk import *; import mpw_desk; print(Desk.connect.__name__, len(mpw_desk.__all__))"
            printed = subprocess.run([sys.executable, "-SBc", program], cwd=folder, stdout=subprocess.PIPE, check=True).stdout
        self.assertEqual(printed.decode(), f"connect {len(mpw_desk.__all__)}\n")


if __name__ == "__main__":
    unittest.main()
