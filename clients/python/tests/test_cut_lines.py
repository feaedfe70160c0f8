"""A connection that breaks within a line, at the proved program: what clients have to know of last lines (mpw_desk/channel.py)."""
import os
import socket
import time
import unittest

from mpw_desk import Lost, Refused
from mpw_desk.channel import RESET
from test_serve import LIMIT, MPW, service


@unittest.skipUnless(os.access(MPW, os.X_OK), f"{MPW} isn't built")
class CutLines(unittest.TestCase):
    def setUp(self):
        manager = service(8, 1, "--ongoing")
        self.service = manager.__enter__()
        self.addCleanup(manager.__exit__, None, None, None)
        self.desk = self.service.desk()
        self.addCleanup(self.desk.hang_up)
        for user in "ann", "annabel":
            self.desk.adduser(user, user)

    def begin(self):
        """A connection of the officer that has sent a part of `deluser annabel`."""
        end = self.service.connect()
        end.settimeout(LIMIT)
        with end.makefile("rb") as replies:
            for line in b"open root abc\n", b"activate officer\n":
                end.sendall(line)
                self.assertEqual(replies.readline(), b"OK 0\n")
        end.sendall(b"deluser ann")
        return end

    def is_there(self, user):
        """Whether the desk has a user, who is deleted then."""
        try:
            self.desk.deluser(user)
            return True
        except Refused as refused:
            self.assertEqual(refused.word, "unknown")
            return False

    def test_ended(self):
        """The last line of a connection that ends is executed, though it has no line feed."""
        with self.begin() as end:
            end.shutdown(socket.SHUT_WR)
            self.assertEqual(end.recv(5), b"OK 0\n")
        self.assertEqual((self.is_there("ann"), self.is_there("annabel")), (False, True))

    def test_reset(self):
        """That of a connection that is reset isn't."""
        with self.begin() as end:
            end.setsockopt(socket.SOL_SOCKET, socket.SO_LINGER, RESET)
        time.sleep(.5)
        self.assertEqual((self.is_there("ann"), self.is_there("annabel")), (True, True))

    def test_given_up(self):
        """A client that can't finish a request leaves nothing of it."""
        with self.service.desk() as desk:
            end, sendall = desk.channel.end, desk.channel.end.sendall

            class Broken:
                """A socket whose kernel takes a part of a line, and then nothing in time."""

                def __getattr__(self, name):
                    return getattr(end, name)

                def sendall(self, data):
                    sendall(data[:11])
                    raise socket.timeout

            desk.channel.end = Broken()
            with self.assertRaisesRegex(Lost, "didn't take the request"):
                desk.deluser("annabel")
        time.sleep(.5)
        self.assertEqual((self.is_there("ann"), self.is_there("annabel")), (True, True))


if __name__ == "__main__":
    unittest.main()
