"""The limits of a service for strangers, who are connections that never had a session: against the proved program over loopback."""
import json
import os
import subprocess
import tempfile
import time
import unittest
from contextlib import suppress

import layouts
from mpw_desk import Desk
from test_serve import LIMIT, MPW, Served, grant_all, read_all, service, words

DENIED = b"DENIED session\n"
NO_PERMISSION = b"DENIED permission submit pad\n"


def asked(end, line=b"whoami\n", count=1, reply=DENIED):
    """Sends a line so often, and reads as many replies of that length."""
    end.sendall(line * count)
    found = b""
    while len(found) < count * len(reply):
        more = end.recv(65536)
        if not more:
            break
        found += more
    return found


def is_ended(end):
    """Whether the service has closed a connection."""
    with suppress(ConnectionResetError):
        return read_all(end) == b""
    return True


def memory_of(process):
    """The memory of a program in kilobytes."""
    with open(f"/proc/{process.pid}/status", encoding="ascii") as file:
        return next(int(line.split()[1]) for line in file if line.startswith("VmRSS:"))


@unittest.skipUnless(os.access(MPW, os.X_OK), f"{MPW} isn't built")
class Strangers(Served):
    def test_lines_in_a_time(self):
        """A stranger gets eight lines at once, and then one in each second. A user gets as many as it asks for."""
        with service(4, 1, "--ongoing") as served:
            with served.connect() as end:
                begun = time.monotonic()
                self.assertEqual(asked(end, count=8), DENIED * 8)
                self.assertLess(time.monotonic() - begun, 2)
                self.assertEqual(asked(end, count=3), DENIED * 3)
                self.assertTrue(2.5 < time.monotonic() - begun < 10)
            with served.desk() as desk:
                begun = time.monotonic()
                for _ in range(100):
                    desk.whoami()
                self.assertLess(time.monotonic() - begun, 5)

    def test_lines_of_all_in_a_time(self):
        """All strangers together get as many lines in a second as --stranger-rate says."""
        with service(16, 1, "--ongoing", "--stranger-rate", "2") as served:
            ends = [served.connect() for _ in range(8)]
            begun = time.monotonic()
            for end in ends:
                end.sendall(b"whoami\n")
            for end in ends:
                self.assertEqual(end.recv(100), DENIED)
                end.close()
            # Two at once, and then two a second.
            self.assertTrue(2.5 < time.monotonic() - begun < 15)

    def test_memory(self):
        """Payloads of strangers are read until --stranger-memory is used up; the payloads of users are not counted."""
        with tempfile.TemporaryDirectory() as folder:
            path = os.path.join(folder, "desk.log")
            with service(4, 1, "--ongoing", "--stranger-memory", "1", "--log", path) as served:
                payload = b"submit pad PAD 400000\n" + bytes(400000)
                with served.connect() as end:
                    self.assertEqual(asked(end, payload), DENIED)
                    self.assertEqual(asked(end, payload), DENIED)
                    with suppress(ConnectionError):
                        end.sendall(payload)
                    self.assertTrue(is_ended(end))
                with served.desk() as desk:
                    grant_all(desk, "pad")
                    self.assertEqual(desk.submit("pad", "PAD", layouts.pad()), 1)
                    for _ in range(3):
                        self.assertTrue(desk.tell("submit pad PAD", bytes(400000)).text.startswith("REFUSED"))
            with open(path, encoding="ascii") as file:
                lines = [json.loads(line) for line in file]
        self.assertEqual([line["limit"] for line in lines if line["event"] == "limit"], ["memory"])

    def test_denied_payloads(self):
        """Equal payloads of a user that are denied take their memory once. After 256 MB of them no payload of that user is read, on any connection; other
        requests are answered, and other users go on."""
        payload = b"submit pad PAD 16777216\n" + bytes(1 << 24)
        with tempfile.TemporaryDirectory() as folder:
            path = os.path.join(folder, "desk.log")
            with service(8, 1, "--ongoing", "--log", path) as served, served.desk() as officer:
                officer.adduser("ann", "ann-token")
                before = memory_of(served.process)
                with served.connect() as first, served.connect() as second:
                    for end in first, second:
                        self.assertEqual(asked(end, b"open ann ann-token\n", reply=b"OK 0\n"), b"OK 0\n")
                    for _ in range(16):
                        self.assertEqual(asked(first, payload, reply=NO_PERMISSION), NO_PERMISSION)
                    self.assertLess(memory_of(served.process) - before, 128 << 10)
                    self.assertTrue(asked(first, reply=b"OK").startswith(b"OK"))
                    for end in first, second:
                        with suppress(ConnectionError):
                            end.sendall(payload)
                    self.assertTrue(is_ended(first))
                    self.assertEqual(asked(second, b"", reply=NO_PERMISSION), NO_PERMISSION)
                    with suppress(ConnectionError):
                        second.sendall(payload)
                    self.assertTrue(is_ended(second))
                with served.connect() as end:
                    self.assertEqual(asked(end, b"open ann ann-token\n", reply=b"OK 0\n"), b"OK 0\n")
                    with suppress(ConnectionError):
                        end.sendall(payload)
                    self.assertTrue(is_ended(end))
                grant_all(officer, "pad")
                self.assertEqual(officer.submit("pad", "PAD", layouts.pad()), 1)
            with open(path, encoding="ascii") as file:
                lines = [json.loads(line) for line in file]
        self.assertEqual([line["limit"] for line in lines if line["event"] == "limit"], ["memory"] * 3)

    def test_denied_payloads_of_two(self):
        """Equal payloads of two users take their memory twice, so that nothing shows a user what another one sent."""
        payloads = [b"submit pad PAD 16777216\n" + bytes([byte]) * (1 << 24) for byte in range(6)]
        with service(8, 1, "--ongoing") as served, served.desk() as officer:
            for user in b"ann", b"bob":
                officer.adduser(user.decode(), "token")
                before = memory_of(served.process)
                with served.connect() as end:
                    self.assertEqual(asked(end, b"open %s token\n" % user, reply=b"OK 0\n"), b"OK 0\n")
                    for payload in payloads:
                        self.assertEqual(asked(end, payload, reply=NO_PERMISSION), NO_PERMISSION)
                    self.assertGreater(memory_of(served.process) - before, 80 << 10)

    def test_probe_is_no_call(self):
        """A client that connects and sends nothing makes no call."""
        with service(3) as served:
            for _ in range(2):
                served.connect().close()
            with served.connect() as end:
                self.assertEqual(asked(end), DENIED)
            # A request and the connection's end, and the worker's calls for a job.
            self.assert_calls(served.end(), 3, 4)

    def test_places(self):
        """Of four places two are kept for users: a third stranger takes the place of the first, and a user stays."""
        with service(4, 1, "--ongoing") as served:
            with served.connect() as first, served.connect() as second, served.desk() as desk:
                self.assertTrue(is_ended(first))
                self.assertEqual(asked(second), DENIED)
                newcomers = []
                for _ in range(6):
                    newcomers.append(served.connect())
                    self.assertEqual(asked(newcomers[-1]), DENIED)
                    self.assertEqual(desk.whoami().user, "root")
                self.assertTrue(is_ended(second))
                self.assertTrue(is_ended(newcomers[0]))
                for end in newcomers:
                    end.close()

    def test_idle_strangers_block_nobody(self):
        with service(4, 1, "--ongoing") as served:
            idle = [served.connect() for _ in range(12)]
            with served.desk() as desk:
                self.assertEqual(desk.whoami().user, "root")
            for end in idle:
                end.close()

    def test_login_next_to_strangers(self):
        """A user can log in next to 200 strangers that ask: those that lost their places take none of the lines of the others."""
        with service(16, 1, "--ongoing") as served:
            ends = [served.connect() for _ in range(200)]
            for end in ends:
                with suppress(OSError):
                    end.sendall(b"whoami\n" * 16)
            begun = time.monotonic()
            with served.desk() as desk:
                self.assertLess(time.monotonic() - begun, 10)
                self.assertEqual(desk.whoami().user, "root")
            for end in ends:
                end.close()

    def test_login_limit(self):
        """A stranger is closed at the limit though it asks, and a user isn't."""
        with service(4, 1, "--ongoing", "--login-limit", "10") as served:
            with served.desk() as desk, served.connect() as end:
                begun = time.monotonic()
                with suppress(OSError):
                    while asked(end) and time.monotonic() - begun < LIMIT:
                        time.sleep(1.5)
                self.assertTrue(8 < time.monotonic() - begun < 20)
                self.assertEqual(desk.whoami().user, "root")

    def test_failed_login(self):
        """A failed login waits a second for its reply, and lets nobody else wait."""
        with service(4, 1, "--ongoing") as served:
            with served.desk() as desk, served.connect() as end:
                begun = time.monotonic()
                end.sendall(b"open root wrong\n")
                for _ in range(10):
                    desk.whoami()
                self.assertLess(time.monotonic() - begun, 0.9)
                self.assertEqual(end.recv(100), b"DENIED login\n")
                self.assertTrue(0.9 < time.monotonic() - begun < 5)

    def test_without_limits(self):
        """A service that isn't ongoing serves strangers as users."""
        with service(2) as served:
            with served.connect() as end:
                begun = time.monotonic()
                self.assertEqual(asked(end, count=100), DENIED * 100)
                self.assertEqual(asked(end, b"open root wrong\n", reply=b"DENIED login\n"), b"DENIED login\n")
                self.assertLess(time.monotonic() - begun, 0.9)
            served.connect().close()
            self.assertEqual(served.end()[::2], (0, ""))

    def test_limits_by_an_option(self):
        """An option of strangers limits them in a service that isn't ongoing too."""
        with service(1, 1, "--stranger-rate", "5") as served:
            with served.connect() as end:
                begun = time.monotonic()
                self.assertEqual(asked(end, count=10), DENIED * 10)
                self.assertTrue(1.5 < time.monotonic() - begun < 10)
            self.assertEqual(served.end()[::2], (0, ""))


@unittest.skipUnless(os.access(MPW, os.X_OK), f"{MPW} isn't built")
class Addresses(Served):
    def test_address_that_others_reach(self):
        """At an address that other machines reach, tokens cross the network in clear: that is said."""
        with subprocess.Popen(
            words(1, listen="0.0.0.0:0"), stdin=subprocess.DEVNULL, stdout=subprocess.PIPE, stderr=subprocess.PIPE) as process:
            try:
                port = int(process.stdout.readline().decode().rsplit(":", 1)[1])
                with Desk.connect("127.0.0.1", port) as desk:
                    desk.open("root", "abc")
                _, told = process.communicate(timeout=LIMIT)
            finally:
                process.kill()
        self.assertEqual(process.returncode, 0)
        self.assertTrue(told.decode().startswith("warning: 0.0.0.0:"), told)


if __name__ == "__main__":
    unittest.main()
