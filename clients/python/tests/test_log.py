"""`mpw-ask --log-summary`: what it counts of the log of a service."""
import gzip
import json
import os
import tempfile
import unittest

from asked import ask
from mpw_log import LogSummary, host_of
from test_readme import blocks_of

PEER = "127.0.0.1:40000"


def line(event, **more):
    return json.dumps({"time": "2026-11-29T21:00:00Z", "event": event, "connection": 1, "peer": PEER, **more}) + "\n"


def request(user, verb, reply, milliseconds=1.0, **more):
    return line("request", user=user, verb=verb, reply=reply, milliseconds=milliseconds, bytes=len(reply) + 1, **more)


LOG = [
    line("begin", calls=10), request(None, "open", "DENIED login"), request("ann", "open", "OK 0", 2.0), request("ann", "submit", "OK 1", 250.5),
    request("ann", "deck", "DENIED permission deck desk"), request("ann", "deck", "DENIED permission deck desk", 3.0),
    request("ann", None, "REFUSED 40 form"), line("end", calls=17),
    line("begin", calls=17), request(None, "whoami", "DENIED session", peer=None)]
EXPECTED = """\
7 requests, 2 connections, 2026-11-29T21:00:00Z to 2026-11-29T21:00:00Z

verb          requests  denied  refused  mean ms  longest ms
deck                 2       2        0      2.0         3.0
open                 2       1        0      1.5         2.0
(no request)         1       0        1      1.0         1.0
submit               1       0        0    250.5       250.5
whoami               1       1        0      1.0         1.0

denials  user  peer       request and reply
      2  ann   127.0.0.1  deck: DENIED permission deck desk
      1  -     -          whoami: DENIED session
      1  -     127.0.0.1  open: DENIED login

slowest ms  time                  user  verb          reply
     250.5  2026-11-29T21:00:00Z  ann   submit        OK 1
       3.0  2026-11-29T21:00:00Z  ann   deck          DENIED permission deck desk
       2.0  2026-11-29T21:00:00Z  ann   open          OK 0
       1.0  2026-11-29T21:00:00Z  -     open          DENIED login
       1.0  2026-11-29T21:00:00Z  ann   deck          DENIED permission deck desk
       1.0  2026-11-29T21:00:00Z  ann   (no request)  REFUSED 40 form
       1.0  2026-11-29T21:00:00Z  -     whoami        DENIED session

calls left: at most 1048558 of 1048576; 17 were answered at 2026-11-29T21:00:00Z, requests after that: 1
"""


def summary_of(*lines):
    summary = LogSummary()
    for text in lines:
        summary.add_line(text)
    return list(summary.lines())


class Summaries(unittest.TestCase):
    def test_program(self):
        """The same of a file, of a compressed one and of the standard input."""
        with tempfile.TemporaryDirectory() as folder:
            plain, packed = os.path.join(folder, "desk.log"), os.path.join(folder, "desk.log.1.gz")
            with open(plain, "w", encoding="ascii") as file, gzip.open(packed, "wt") as other:
                file.writelines(LOG)
                other.writelines(LOG)
            for path, given in (plain, ""), (packed, ""), ("-", "".join(LOG)):
                self.assertEqual(ask("--log-summary", path, given=given), (0, EXPECTED, ""))
            status, printed, fault = ask("--log-summary", os.path.join(folder, "none.log"))
            self.assertEqual((status, printed, "No such file" in fault), (4, "", True))
            self.assertEqual(ask("--log-summary", plain, "127.0.0.1:1")[0], 2)

    def test_page(self):
        """README.md shows the same summary."""
        blocks = blocks_of("The log of a service")
        self.assertEqual(blocks[0], ["mpw-ask --log-summary desk.log"])
        self.assertEqual([line for block in blocks[1:] for line in block], [line for line in EXPECTED.splitlines() if line])

    def test_dropped_lines(self):
        """Their numbers are added up. A line of them without a number is no line of a log."""
        found = summary_of(LOG[0], line("dropped", dropped=40), LOG[3], line("dropped", dropped=2), line("dropped"))
        self.assertEqual(found[-3:], [
            "calls left: at most 1048565 of 1048576; 10 were answered at 2026-11-29T21:00:00Z, requests after that: 1",
            "42 lines were dropped, since the log took none for a while: the numbers above lack them", "1 lines aren't lines of a log"])

    def test_other_lines(self):
        """Lines that are cut, that have other events or lack a member are counted, and nothing of them is printed that isn't visible."""
        found = summary_of("{}\n", LOG[3][:40], "[]", "7", line("dropped\x1b"), line("begin"), request("a\x1b[2Jb", "open", "DENIED login"))
        self.assertIn("other lines: 1 dropped?", found)
        self.assertIn("5 lines aren't lines of a log", found)
        self.assertIn("calls left: unknown, since no connection begins or ends in this log", found)
        self.assertIn("      1  a?[2Jb  127.0.0.1  open: DENIED login", found)

    def test_only_the_slowest(self):
        found = summary_of(*(request("ann", "cells", f"OK {number}", number) for number in range(100)))
        self.assertEqual([row.split()[0] for row in found if row.endswith(tuple(f"OK {number}" for number in range(100)))], [f"{number}.0" for number in range(99, 79, -1)])

    def test_many_denials(self):
        found = summary_of(*(request(f"user{number}", "cells", "DENIED session") for number in range(25)))
        self.assertIn("      5  others", found)

    def test_peers(self):
        self.assertEqual([host_of(peer) for peer in ("[::1]:40000", PEER, None)], ["[::1]", "127.0.0.1", "-"])

    def test_nothing(self):
        self.assertEqual(summary_of()[0], "0 requests, 0 connections")


if __name__ == "__main__":
    unittest.main()
