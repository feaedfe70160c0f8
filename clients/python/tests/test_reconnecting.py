"""A conversation of more lines than a desk answers on one connection: it goes on over a new one, or says where to go on."""
import socket
import threading
import unittest
from unittest import mock

import mpw_desk.conversation as client
from asked import ask
from mpw_desk import BadWord, Channel, Denied, Desk, Lost, NotFinished, NotSent
from stand_in import OFFICER, TOKEN, StandIn, listening, model, saying
from test_ask import PIPED, WithDesk, WithFiles

FEW = 8


class WithFewLines(unittest.TestCase):
    """A desk that answers few lines on one connection, and a client that knows it."""

    def setUp(self):
        for module in model, client:
            patch = mock.patch.object(module, "MOST_LINES", FEW)
            patch.start()
            self.addCleanup(patch.stop)
        self.stand_in, self.count = StandIn(), 0
        listener = listening(self.serve)
        self.port = listener.__enter__()
        self.addCleanup(listener.__exit__, None, None, None)

    def serve(self, end):
        self.count += 1
        self.stand_in.serve(end)

    def connect(self):
        desk = Desk.connect("127.0.0.1", self.port, reconnects=True)
        self.addCleanup(desk.hang_up)
        return desk

    def officer(self):
        """A session of the officer, three lines before the connection's last one."""
        desk = self.connect()
        desk.open(OFFICER, TOKEN)
        desk.activate("officer")
        while desk.answered < FEW - 3:
            desk.status()
        return desk


class Going(WithFewLines):
    def test_session_and_roles(self):
        desk = self.connect()
        desk.open(OFFICER, TOKEN)
        desk.activate("officer")
        for role in "a", "b", "c":
            desk.addrole(role)
            desk.assign(OFFICER, role)
            desk.activate(role)
        desk.drop("b")
        self.assertEqual(desk.whoami().active, ("a", "c", "officer"))
        for _ in range(100):
            self.assertEqual(desk.whoami().active, ("a", "c", "officer"))
        self.assertGreater(self.count, 20)

    def test_without_a_session(self):
        desk = self.connect()
        desk.open(OFFICER, TOKEN)
        desk.close()
        for _ in range(3 * FEW):
            with self.assertRaisesRegex(Denied, "DENIED session"):
                desk.whoami()
        desk.open(OFFICER, TOKEN)
        self.assertEqual(desk.whoami().active, ())
        self.assertEqual(self.count, 4)

    def test_what_others_changed(self):
        """A role that somebody took away meanwhile isn't activated again, and an ended session isn't opened."""
        desk, other = self.connect(), self.officer()
        for line in "addrole a", "adduser ann ann", "assign ann a":
            other.ask(*line.split(" "))
        desk.open("ann", "ann")
        desk.activate("a")
        self.assertEqual(desk.whoami().active, ("a",))
        other.deassign("ann", "a")
        for _ in range(2 * FEW):
            self.assertEqual(desk.whoami().active, ())
        other.deluser("ann")
        for _ in range(2 * FEW):
            with self.assertRaisesRegex(Denied, "DENIED session"):
                desk.whoami()

    def test_waiting(self):
        """A wait may take more lines than a connection has."""
        told = [b"OK 1\nchecking 2 1 4\n"] * FEW
        with listening(saying(*told)) as port, Desk.connect("127.0.0.1", port, reconnects=True) as desk:
            with self.assertRaises(NotFinished):
                desk.wait(.001, 1)
            self.assertLess(desk.answered, FEW + 1)

    def test_not_of_itself(self):
        """Without `reconnects` the connection ends."""
        with Desk.connect("127.0.0.1", self.port) as desk:
            desk.open(OFFICER, TOKEN)
            for _ in range(FEW - 1):
                desk.status()
            with self.assertRaisesRegex(NotSent, f"a desk answers {FEW} lines on one connection"):
                desk.status()
        self.assertEqual(self.count, 1)


class Stopping(WithFewLines):
    def stopped(self, desk):
        with self.assertRaises(NotSent) as caught:
            for _ in range(FEW):
                desk.status()
        self.assertRaises(NotSent, desk.status)
        return str(caught.exception)

    def test_another_token(self):
        desk = self.officer()
        desk.opened[2] = "abd"
        self.assertEqual(
            self.stopped(desk), f"a desk answers {FEW} lines on one connection, and a new one failed: open root: DENIED login")

    def test_a_role_that_is_denied(self):
        desk = self.officer()
        lines = desk.session_lines
        desk.session_lines = lambda: [*lines(), ["activate", "none"]]
        self.assertIn("activate none: DENIED permission activate none", self.stopped(desk))

    def test_no_new_connection(self):
        desk = self.officer()

        def refuse():
            raise Lost("no connection")

        desk.new_channel = refuse
        self.assertIn("and a new one failed: no connection", self.stopped(desk))

    def test_interrupted(self):
        desk = self.officer()

        def interrupt():
            raise KeyboardInterrupt

        desk.new_channel = interrupt
        with self.assertRaises(KeyboardInterrupt):
            for _ in range(FEW):
                desk.status()
        self.assertRaises(NotSent, desk.status)


class Asked(WithDesk):
    def test_a_long_script(self):
        """The replies are those of one connection, but for the rows of the trail: a role that was dropped stays so."""
        lines = ["addrole a", "addrole b", "assign root a", "assign root b", "activate a", "activate b", "drop b", *["cells"] * 4050, *["whoami"] * 90]
        status, printed, told = self.ask(given="".join(f"{line}\n" for line in lines))
        session = "user root\nactive a\nactive officer\nauthorized a\nauthorized b\nauthorized officer\n"
        self.assertEqual((status, told), (0, ""))
        self.assertEqual(printed, "OK 0\n" * 4057 + f"OK 6\n{session}" * 90)


class Lines(WithFiles):
    """Which line a script stops at, and where it goes on."""

    def test_script_of_a_program(self):
        status, printed, told = ask("--script", PIPED, given="cells\n" * 4100, token=None)
        self.assertEqual((status, printed), (3, "OK 0\n" * 4095))
        self.assertEqual(told, (
            "mpw-ask: line 4096 wasn't asked: a desk answers 4096 lines on one connection, and has answered them."
            " A desk of --script ends with its connection: use mpw serve for a longer script\n"))

    def test_no_reply(self):
        with listening(saying(b"OK 0\n", b"")) as port:
            status, printed, told = ask(f"127.0.0.1:{port}", given="cells\n# a comment\ncells\n")
        self.assertEqual((status, printed), (3, "OK 0\n"))
        self.assertEqual(told, (
            "mpw-ask: line 3 got no reply: the other end closed the connection. If the desk executed it, go on at line 4, else at line 3\n"))

    def test_on_the_command_line(self):
        with listening(saying(b"OK 0\n", b"")) as port:
            told = ask(f"127.0.0.1:{port}", "cells", "status")[2]
        self.assertEqual(told, (
            "mpw-ask: status got no reply: the other end closed the connection. If the desk executed it, go on at the next one, else at this line\n"))

    def test_waiting(self):
        """Before a line that waits, and after a run."""
        with listening(saying(b"OK 0\n", b"")) as port:
            told = ask(f"127.0.0.1:{port}", "--wait", given="cells\nmarkers\n")[2]
            self.assertIn("line 2 wasn't asked: the other end closed the connection. Go on at line 2\n", told)
        with listening(saying(b"OK 1\nrun 1\n", b"")) as port:
            told = ask(f"127.0.0.1:{port}", "--wait", given="run\nmarkers\n")[2]
            self.assertIn("line 1 was answered, and then: the other end closed the connection. Go on at line 2\n", told)


class WholeLines(unittest.TestCase):
    """A desk executes a last line without a line feed, so a part of a line must never look like one."""

    def test_one_call(self):
        """Each line is written with its line feed by one call."""
        ours, its = socket.socketpair()
        with its:
            desk = Desk(Channel(ours), 5, 5)
            sent = []
            desk.channel.end = mock.Mock(wraps=ours, sendall=lambda data: (sent.append(data), its.sendall(b"OK 0\n")))
            desk.deluser("annabel")
            desk.deck(b"tile 256")
            desk.tell("close")
            self.assertEqual(sent, [b"deluser annabel\n", b"deck 8\ntile 256", b"close\n"])
            self.assertRaises(BadWord, desk.tell, "deluser ann\nabel")
            self.assertEqual(len(sent), 3)
            ours.close()

    def test_given_up(self):
        """A request that can't be finished resets the connection: the other end sees a fault, and no end after a part."""
        faults = []

        def slow(end):
            end.recv(1)
            given_up.wait(20)
            try:
                while end.recv(1 << 20):
                    pass
                faults.append(None)
            except OSError as error:
                faults.append(error)
            seen.set()

        given_up, seen = threading.Event(), threading.Event()
        with listening(slow) as port, Desk.connect("127.0.0.1", port, reply_limit=.1) as desk:
            with mock.patch("mpw_desk.channel.SLOWEST", 1 << 40), self.assertRaisesRegex(Lost, "didn't take the request"):
                desk.submit("c", "t", bytes(1 << 24))
            given_up.set()
            self.assertTrue(seen.wait(20))
        self.assertIsInstance(faults[0], ConnectionResetError)


if __name__ == "__main__":
    unittest.main()
