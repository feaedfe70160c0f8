"""Ends that aren't desks, a run that is waited for, and a program at the other end of a pipe."""
import os
import sys
import time
import unittest
from unittest import mock

import layouts
import mpw_desk
from mpw_desk import (
    Axis, Cell, Desk, Key, Lost, Marker, NotADesk, NotFinished, Refused, State, Status, digest_of)
from stand_in import OFFICER, TOKEN, TOP, StandIn, listening, saying


class OtherEnds(unittest.TestCase):
    """Ends that close, are silent, or say what no desk says. Each raises soon, and the connection is gone then."""

    def told(self, error, serve, call=Desk.cells, limit=.4):
        with listening(serve) as port, Desk.connect("127.0.0.1", port, reply_limit=limit) as desk:
            begun = time.monotonic()
            with self.assertRaises(error) as caught:
                call(desk)
            self.assertLess(time.monotonic() - begun, 8)
            self.assertRaises(Lost, desk.whoami)
        return str(caught.exception)

    def test_gone(self):
        self.assertIn("closed", self.told(Lost, saying()))
        self.assertIn("in the middle of a line", self.told(Lost, saying(b"OK 1\npad 1")))
        self.assertIn("closed", self.told(Lost, saying(b"OK 2\npad 1 ann\n")))

    def test_silent(self):
        self.assertIn("within 0.4 s", self.told(Lost, saying(b"", then=lambda end: end.recv(1))))
        self.assertIn("within 0.4 s", self.told(Lost, saying(b"OK 1\n", then=lambda end: end.recv(1))))

    def test_slow(self):
        def drip(end):
            for _ in range(100):
                end.sendall(b"a")
                time.sleep(.05)

        self.told(Lost, saying(b"", then=drip))

    def test_in_pieces(self):
        def piecemeal(end):
            for byte in b"OK 2\nchip 3 bob\npad 1 ann\n":
                end.sendall(bytes([byte]))
                time.sleep(.002)

        with listening(saying(b"", then=piecemeal)) as port, Desk.connect("127.0.0.1", port) as desk:
            self.assertEqual(desk.cells(), [Cell("chip", 3, "bob"), Cell("pad", 1, "ann")])

    def test_garbage(self):
        for text in (
                b"HTTP/1.1 400 Bad Request\r\n", b"\xff\xfe\x00\n", b"OK\n", b"OK -1\n", b"OK 01\n", b"OK 1 2\n", b"\n",
                b"DENIED\n", b"DENIED  x\n", b"REFUSED x y\n", b"ok 0\n", b"OK 0\r\n", b"OK 0\x1b[2J\n"):
            self.assertIn("no desk", self.told(NotADesk, saying(text)))

    def test_endless_line(self):
        def pour(end):
            while True:
                end.sendall(b"a" * 65536)

        self.assertIn("line of more than", self.told(NotADesk, saying(b"OK 1\n", then=pour), limit=20))

    def test_endless_reply(self):
        def pour(end):
            while True:
                end.sendall(b"pad 1 ann\n" * 6000)

        with mock.patch("mpw_desk.channel.LARGEST_REPLY", 1 << 20):
            told = self.told(Lost, saying(b"OK 9999999999\n", then=pour), limit=20)
        self.assertIn("more than 1048576 bytes", told)

    def test_other_lines_than_the_request_has(self):
        def shapes(desk):
            desk.shapes("c")

        for call, texts in (
                (Desk.cells, [b"OK 1\npad\n"]),
                (Desk.status, [b"OK 0\n", b"OK 1\ndone 3\n", b"OK 1\nidle 3\n"]),
                (Desk.run, [b"OK 1\nversion 1\n"]),
                (Desk.verdict, [b"OK 2\nclean\nclean\n", b"OK 1\nopen\n"]),
                (Desk.markers, [b"OK 1\nsp:V:0:1:2:3:4\n", b"OK 1\nsp:V:0:1:2:3 pad\n", b"OK 1\nmasked sp\n"]),
                (Desk.waivers, [b"OK 1\nsp:V:0:1:2:3:4 asked a b\n"]),
                (Desk.trail, [b"OK 1\n1,a,b\n", b'OK 1\n1,"a,b,c,d\n']),
                (Desk.whoami, [b"OK 1\nactive x\n", b"OK 0\n"]),
                (Desk.close, [b"OK 1\nx\n"]),
                (shapes, [b"OK 1\nc 1 1/0 boundary 0 0 1\n", b"OK 1\nc 1 1/0 path 2 0\n"])):
            for text in texts:
                self.told(NotADesk, saying(text), call)

    def test_more_than_was_asked_for(self):
        with listening(saying(b"OK 0\nOK 0\n", b"")) as port, Desk.connect("127.0.0.1", port) as desk:
            desk.close()
            self.assertRaises(NotADesk, desk.close)

    def test_no_connection(self):
        with listening(saying()) as port:
            pass
        self.assertRaises(Lost, Desk.connect, "127.0.0.1", port, 2)
        self.assertRaises(Lost, Desk.connect, "no such host", 1, 2)
        with mock.patch("socket.getaddrinfo", side_effect=lambda *words, **more: time.sleep(2)):
            begun = time.monotonic()
            self.assertRaises(Lost, Desk.connect, "slow", 1, .3)
            self.assertLess(time.monotonic() - begun, 1.8)
        self.assertRaises(Lost, Desk.over, ["/no/such/program"])

    def test_refused_before_all_was_taken(self):
        def refuse(end):
            end.recv(10)
            end.sendall(b"REFUSED 41 long\n")
            end.close()

        with listening(refuse) as port, Desk.connect("127.0.0.1", port, reply_limit=10) as desk:
            try:
                with self.assertRaises(Refused):
                    desk.submit("c", "t", bytes(1 << 24))
            except Lost:
                pass  # where the end was gone before it was read

    def test_as_many_lines_as_a_desk_answers(self):
        with listening(StandIn().serve) as port, Desk.connect("127.0.0.1", port) as desk:
            desk.open(OFFICER, TOKEN)
            for _ in range(mpw_desk.MOST_LINES - 1):
                desk.status()
            with self.assertRaises(Lost) as caught:
                desk.status()
            self.assertIn("4096 lines", str(caught.exception))

    def test_interrupted(self):
        with listening(saying(b"", then=lambda end: end.recv(1))) as port, Desk.connect("127.0.0.1", port) as desk:
            desk.channel.receive = lambda deadline: (_ for _ in ()).throw(KeyboardInterrupt)
            self.assertRaises(KeyboardInterrupt, desk.cells)
            self.assertRaises(Lost, desk.cells)


class Waiting(unittest.TestCase):
    def test_progress(self):
        told = [b"OK 1\ncutting 2\n", b"OK 1\nchecking 2 1 4\n", b"OK 1\nchecking 2 3 4\n", b"OK 1\nfinished 2\n"]
        seen = []
        with listening(saying(*told)) as port, Desk.connect("127.0.0.1", port) as desk:
            self.assertEqual(desk.wait(.01, 10, seen.append), Status(State.FINISHED, 2))
        self.assertEqual(list(map(str, seen)), ["cutting 2", "checking 2 1 4", "checking 2 3 4", "finished 2"])

    def test_limit(self):
        with listening(saying(*[b"OK 1\nchecking 2 1 4\n"] * 1000)) as port, Desk.connect("127.0.0.1", port) as desk:
            with self.assertRaises(NotFinished) as caught:
                desk.wait(.01, .2)
            self.assertEqual(caught.exception.status, Status(State.CHECKING, 2, 1, 4))
            desk.status()

    def test_left_by_another(self):
        with listening(saying(b"OK 1\ncutting 2\n", b"OK 1\nidle\n")) as port, Desk.connect("127.0.0.1", port) as desk:
            self.assertRaises(NotFinished, desk.wait, .01)


class Pipe(unittest.TestCase):
    def ask(self, command):
        with Desk.over([*command, "script", "--officer", OFFICER, "--digest", digest_of(TOKEN)]) as desk:
            desk.open(OFFICER, TOKEN)
            desk.activate("officer")
            for operation in "submit", "read", "place":
                desk.grant(operation, "pad", "officer")
            for operation in "deck", "run":
                desk.grant(operation, "desk", "officer")
            desk.submit("pad", "PAD", layouts.pad())
            desk.place("pad", "p", "M90", 0, 0)
            desk.deck("tile 256\nwidth w 1/0 11\n")
            self.assertEqual(desk.run(), 1)
            self.assertEqual(desk.wait(), Status(State.FINISHED, 1))
            self.assertEqual(desk.markers(), ([Marker(Key("w", Axis.H, 0, 0, 10, 0, 100), ("pad",))], []))
            process = desk.channel.process
        self.assertEqual(process.returncode, 0)

    def test_a_program(self):
        self.ask([sys.executable, "-SB", os.path.join(os.path.dirname(__file__), "piped.py")])

    def test_the_program(self):
        program = os.path.join(TOP, "crates", "mpw_main", "out", "mpw_main")
        if not os.path.exists(program):
            self.skipTest("crates/mpw_main isn't built: ./mpw script builds it")
        self.ask([program])

    def test_one_that_ends(self):
        with Desk.over([sys.executable, "-c", "import sys; sys.exit(5)"]) as desk:
            with self.assertRaises(Lost) as caught:
                desk.cells()
        self.assertIn("status 5", str(caught.exception))


if __name__ == "__main__":
    unittest.main()
