"""Waivers after a new run: Desk.carry, and mpw-ask --carry with its lines to sign."""
import unittest

import layouts  # noqa: F401, which finds make
from asked import ask
from make import box, library, structure
from mpw_carry import earlier_of
from mpw_desk import MOST_LINES, BadWord, Denied, Desk, Key, Refused
from stand_in import OFFICER, TOKEN, StandIn, listening
from test_ask import WithFiles

LOW, HIGH, NEW = "w:V:0:0:10:0:100", "w:V:0:50:60:0:100", "w:V:0:200:210:0:100"
DECK = b"tile 256\nwidth w 1/0 11\n"


def bars(*lefts):
    """Bars that are 10 wide."""
    return library(structure("PAD", *(box(1, left, 0, left + 10, 100) for left in lefts)))


class Carried(WithFiles):
    """A desk whose second run finds one of two markers again, and a new one."""

    def setUp(self):
        super().setUp()
        listener = listening(StandIn().serve)
        self.port = listener.__enter__()
        self.addCleanup(listener.__exit__, None, None, None)
        with self.desk() as desk:
            for operation in "submit", "read", "place":
                desk.grant(operation, "pad", "officer")
            for operation in "deck", "run", "waive", "sign", "verdict":
                desk.grant(operation, "desk", "officer")
            for operation, about in ("sign", "desk"), ("read", "pad"), ("verdict", "desk"):
                desk.addrole(operation)
                desk.grant(operation, about, operation)
            desk.adduser("dora", TOKEN)
            for role in "sign", "read", "verdict":
                desk.assign("dora", role)
            desk.deck(DECK)
            self.run_over(desk, 0, 50)

    def desk(self, user=OFFICER, *roles):
        desk = Desk.connect("127.0.0.1", self.port)
        desk.open(user, TOKEN)
        for role in roles or ["officer"]:
            desk.activate(role)
        return desk

    def run_over(self, desk, *lefts):
        """Places bars, and runs."""
        desk.submit("pad", "PAD", bars(*lefts))
        desk.place("pad", str(lefts[-1]), "R0", 0, 0)
        desk.run()

    def carry(self, *words, name="earlier.txt", **more):
        given = "--user", OFFICER, "--role", "officer", "--carry", self.file(name), *words
        return ask(f"127.0.0.1:{self.port}", *given, **more)

    def write(self, text, name="earlier.txt"):
        with open(self.file(name), "w", encoding="ascii") as file:
            file.write(text)

    def test_lines(self):
        """The first run has two waivers, one of them signed. They are asked for again if the second run finds their markers."""
        with self.desk() as desk, self.desk("dora", "sign", "read") as signer:
            for key in LOW, HIGH:
                desk.waive(key)
            signer.sign(LOW)
            self.write("".join(f"{line}\n" for line in ["OK 2", *desk.ask("waivers")]))
            desk.unplace("pad", "50")
            self.run_over(desk, 0, 200)
        status, printed, told = self.carry()
        expected = f"# 1 found again, 1 gone, 1 new\n# gone: {HIGH}\n# new: {NEW} pad\n# asked by root, before signed root dora\nsign {LOW}\n"
        self.assertEqual((status, printed, told), (0, expected, ""))
        given = "--user", "dora", "--role", "sign", "--role", "read", "--role", "verdict"
        signed = ask(f"127.0.0.1:{self.port}", *given, given=printed + "verdict\n")
        self.assertEqual(signed, (0, "OK 0\nOK 1\nopen 1\n", ""))
        status, printed, told = self.carry()
        self.assertEqual((status, printed.splitlines()[-1], told), (0, f"# signed: {LOW} by dora", ""))

    def test_with_lines(self):
        """After a run on the same command line, and with a listing of markers."""
        self.write(f"OK 2\n{LOW} pad\n{HIGH} pad\nmasked w 3\n\n# a comment\nsign {NEW}\n")
        status, printed, _ = self.carry("--wait", "run")
        lines = ["OK 1", "run 2", "# 2 found again, 1 gone, 0 new", f"# gone: {NEW}"]
        lines += [f"{word} {key}".lstrip() for key in (LOW, HIGH) for word in ("# asked by root\nsign",)]
        self.assertEqual((status, printed), (0, "".join(f"{line}\n" for line in lines)))

    def test_desk(self):
        with self.desk() as desk:
            desk.waive(HIGH)
            carried = desk.carry([LOW, Key.of(HIGH), NEW, *desk.markers().full, *desk.waivers()])
            self.assertEqual([str(it.key) for it in carried.again], [LOW, HIGH])
            self.assertEqual(([str(key) for key in carried.asked], carried.left), ([LOW], []))
            self.assertEqual(([str(key) for key in carried.gone], carried.new, carried.masked), ([NEW], [], []))
            self.assertEqual(desk.carry([]).new, desk.markers().full)
            self.assertRaises(BadWord, desk.carry, ["hello"])

    def test_somebody_else(self):
        """A waiver that somebody else asked for meanwhile is no fault."""
        with self.desk() as desk, self.desk() as other:
            listed, waivers = other.waivers, desk.waivers

            def meanwhile():
                found = waivers()
                if not found:
                    other.waive(LOW)
                return found

            desk.waivers = meanwhile
            carried = desk.carry([LOW, HIGH])
            self.assertEqual(([str(key) for key in carried.asked], len(carried.again)), ([HIGH], 2))
            self.assertEqual(len(listed()), 2)

    def test_at_the_limit_of_lines(self):
        with self.desk() as desk:
            desk.answered = MOST_LINES - 5
            carried = desk.carry([LOW, HIGH])
            self.assertEqual([str(key) for key in carried.asked], [LOW])
            self.assertEqual([str(it.key) for it in carried.left], [HIGH])

    def test_not_permitted(self):
        self.write(f"{LOW} asked ann\n")
        with self.desk("dora", "sign", "read") as desk:
            self.assertRaises(Denied, desk.carry, [LOW])
        words = "--user", "dora", "--role", "read", "--carry", self.file("earlier.txt")
        told = "mpw-ask: --carry: DENIED permission waive desk\n"
        self.assertEqual(ask(f"127.0.0.1:{self.port}", *words), (1, "", told))
        with self.desk() as desk:
            desk.unplace("pad", "50")
            self.assertRaises(Refused, desk.run)
        self.assertEqual(self.carry(name="none.txt")[0], 4)

    def test_no_listing(self):
        for text in "hello\n", "sign\n", f"DENIED session\n{LOW} pad\n", "OK\n", "w:V:0:0:10:0: pad\n":
            self.write(text)
            status, printed, told = self.carry("whoami")
            self.assertEqual((status, printed), (4, ""))
            self.assertIn("line 1: ", told)

    def test_listings(self):
        found = earlier_of(f"OK 1\n{LOW} signed ann dora\nwaive {HIGH}")
        self.assertEqual(found, {Key.of(LOW): ["signed", "ann", "dora"], Key.of(HIGH): []})


if __name__ == "__main__":
    unittest.main()
