"""The client against the proved program over loopback: `mpw serve` with users side by side, with clients that leave half-way, send
nothing, send garbage or read nothing, and at its limits. The program is MPW_PROGRAM, else the one that the gate built."""
import hashlib
import json
import os
import re
import resource
import shutil
import socket
import subprocess
import sys
import tempfile
import threading
import time
import unittest
from contextlib import contextmanager, suppress

import layouts
from asked import PROGRAM as ASK, environment
from mpw_desk import Denied, Desk, State
from stand_in import TOP

sys.path.append(os.path.join(TOP, "examples"))

from make import array, box, library, structure  # noqa: E402

MPW = os.environ.get("MPW_PROGRAM", os.path.join(TOP, "crates", "mpw_main", "out", "mpw_main"))
PAGE = os.path.join(os.path.dirname(ASK[-1]), "mpw-page")
DIGEST = hashlib.sha256(b"abc").hexdigest()
BUILT = [os.path.join(TOP, "crates", crate, "out", crate) for crate in ("mpw_main", "mpw_firm")]
# A machine may be slow: 2^20 calls take half a minute on a quick one.
LIMIT = 240
NOBODY = 65534
DECK = b"tile 256\nwidth w 1/0 11\n"


def words(connections, workers=1, *more, listen="127.0.0.1:0"):
    """The command line of a service of the officer root."""
    return [MPW, "serve", "--listen", listen, "--connections", str(connections), "--workers", str(workers), "--officer", "root",
            "--digest", DIGEST, *more]


class Service:
    """A service that runs."""

    def __init__(self, process):
        self.process = process
        told = process.stdout.readline().decode()
        found = re.fullmatch(r"listening 127\.0\.0\.1:([0-9]+)\n", told)
        if not found:
            raise AssertionError(f"{told!r}: {process.communicate(timeout=LIMIT)[1]!r}")
        self.port = int(found.group(1))

    def connect(self):
        return socket.create_connection(("127.0.0.1", self.port), LIMIT)

    def desk(self, user="root", token="abc", role="officer"):
        """A connection with a session."""
        desk = Desk.connect("127.0.0.1", self.port)
        desk.open(user, token)
        desk.activate(role)
        return desk

    def end(self):
        """Its exit status, what it printed after the first line, and what it printed on the standard error."""
        printed, told = self.process.communicate(timeout=LIMIT)
        return self.process.returncode, printed.decode(), told.decode()


@contextmanager
def service(*given, **more):
    popen = subprocess.Popen(
        words(*given, **more), stdin=subprocess.DEVNULL, stdout=subprocess.PIPE, stderr=subprocess.PIPE)
    with popen:
        try:
            yield Service(popen)
        finally:
            popen.kill()


def read_all(end):
    """What an end sends until it closes."""
    found = b""
    while True:
        more = end.recv(65536)
        if not more:
            return found
        found += more


def replies_of(lines):
    """The texts of replies, one after the other."""
    lines = iter(lines)
    for first in lines:
        count = int(first.split()[1]) if first.startswith("OK ") else 0
        yield "".join(f"{line}\n" for line in [first, *(next(lines) for _ in range(count))])


def sessions_of(file):
    """The lines of a script with their payloads, a list for each session."""
    sessions = []
    for line in file:
        words = line.decode().rstrip("\n").split(" ")
        payload = None
        if words[0] in ("submit", "deck"):
            payload = file.read(int(words.pop()))
        if words[0] == "open":
            sessions.append([])
        sessions[-1].append((" ".join(words), payload))
    return sessions


def ask_until_the_end(served):
    """Asks `whoami` in sessions of the officer, one after the other, until the service closes the connection, or has no more to say."""
    reply = b"OK 2\nuser root\nauthorized officer\n"
    with suppress(OSError):
        while True:
            with served.connect() as end:
                # A desk without calls answers less than is awaited, and the connection stays open.
                end.settimeout(20)
                end.sendall(b"open root abc\n")
                if end.recv(100) != b"OK 0\n":
                    return
                for _ in range(15):
                    end.sendall(b"whoami\n" * 256)
                    left = 256 * len(reply)
                    while left > 0:
                        found = end.recv(left)
                        if not found:
                            return
                        left -= len(found)


def ask_whoami(end, count):
    """Asks without a session, and reads the replies."""
    end.sendall(b"whoami\n" * count)
    left = count * len(b"DENIED session\n")
    while left > 0:
        found = end.recv(left)
        assert found, "the service ended the connection"
        left -= len(found)


def events_of(path):
    """The events of a log, each of whose lines is whole."""
    with open(path, encoding="ascii") as file:
        return [json.loads(line)["event"] for line in file]


def await_file(path):
    """Waits until there is a file."""
    begun = time.monotonic()
    while not os.path.exists(path):
        assert time.monotonic() - begun < LIMIT, path
        time.sleep(0.05)


def await_events(path, count):
    """Waits until a log has so many whole lines."""
    begun = time.monotonic()
    while True:
        with open(path, "rb") as file:
            if file.read().count(b"\n") >= count:
                return
        assert time.monotonic() - begun < LIMIT, path
        time.sleep(0.05)


@contextmanager
def small_disk():
    """A file system of a megabyte, where one can be made."""
    with tempfile.TemporaryDirectory(prefix="mpw-disk-") as path:
        if subprocess.run(["mount", "-t", "tmpfs", "-o", "size=1m", "none", path], stderr=subprocess.DEVNULL, check=False).returncode != 0:
            raise unittest.SkipTest("no file system can be mounted here")
        try:
            yield lambda name: os.path.join(path, name)
        finally:
            subprocess.run(["umount", path], check=False)


def grant_all(desk, *cells):
    """The officer may do all, over these cells."""
    for cell in cells:
        for operation in ("submit", "read", "place"):
            desk.grant(operation, cell, "officer")
    for operation in ("deck", "run", "waive", "sign", "verdict", "audit"):
        desk.grant(operation, "desk", "officer")


@unittest.skipUnless(os.access(MPW, os.X_OK), f"{MPW} isn't built")
class Served(unittest.TestCase):
    def assert_calls(self, ended, least, most):
        """The service ended well, and its desk answered so many calls."""
        status, printed, told = ended
        self.assertEqual((status, told), (0, ""))
        found = re.fullmatch(r"calls ([0-9]+)\n", printed)
        self.assertTrue(found, printed)
        self.assertTrue(least <= int(found.group(1)) <= most, printed)


class Sessions(Served):
    def test_first_session(self):
        with open(os.path.join(TOP, "examples", "first-session.txt"), "rb") as file:
            lines = file.read()
        with open(os.path.join(TOP, "crates", "mpw_main", "stdout"), "rb") as file:
            expected = file.read()
        with service(1) as served:
            with served.connect() as end:
                end.sendall(lines)
                end.shutdown(socket.SHUT_WR)
                self.assertEqual(read_all(end), expected)
            # Twelve requests, the connection's end, and the worker's calls for a job: where it starts before the end, and as it is stopped.
            self.assert_calls(served.end(), 14, 15)

    def test_history_of_the_first_session(self):
        """The requests of the first session, in order and each as it was answered, and then those of who asks for the trail."""
        first = [
            "1,root,open,root,OK 0", "2,root,activate,officer,OK 0", "3,root,adduser,ann,OK 0", "4,root,addrole,alpha,OK 0",
            "5,root,assign,ann,OK 0", "6,root,grant,pad,OK 0", "7,root,open,ann,REFUSED 30 opened", "8,root,close,-,OK 0",
            "9,ann,open,ann,OK 0", "10,ann,whoami,-,OK 2", "11,ann,activate,alpha,OK 0", "12,ann,whoami,-,OK 3"]
        asking = ["13,root,open,root,OK 0", "14,root,activate,officer,OK 0", "15,root,grant,desk,OK 0"]
        with open(os.path.join(TOP, "examples", "first-session.txt"), "rb") as file:
            lines = file.read()
        with service(2) as served:
            with served.connect() as end:
                end.sendall(lines)
                end.shutdown(socket.SHUT_WR)
                read_all(end)
            with served.desk() as desk:
                desk.grant("audit", "desk", "officer")
                self.assertEqual(desk.tell("trail").text, "".join(f"{line}\n" for line in ["OK 15", *first, *asking]))
            # Sixteen requests, the ends of both connections, and the worker's calls for a job.
            self.assert_calls(served.end(), 19, 20)

    def test_run_over_three_tiles(self):
        """From a new desk to the marker of a run over three tiles, on the one connection and with the one worker."""
        with service(1) as served:
            desk = served.desk()
            for cell in ("chip", "left", "right", "via"):
                for operation in ("submit", "use", "read", "place"):
                    desk.grant(operation, cell, "officer")
            for operation in ("deck", "run"):
                desk.grant(operation, "desk", "officer")
            data = library(structure("TOP", box(1, 0, 0, 512, 100), box(2, 500, 40, 512, 60)))
            self.assertEqual(desk.tell("submit chip TOP", data).text, "OK 1\nversion 1\n")
            self.assertEqual(desk.tell("deck", b"tile 256\nenclosing en 1/0 2/0 5").text, "OK 0\n")
            self.assertEqual(desk.tell("place chip c1 R0 0 0").text, "OK 1\nversion 1\n")
            self.assertEqual(desk.tell("run").text, "OK 1\nrun 1\n")
            self.assertTrue(any(desk.tell("status").text == "OK 1\nfinished 1\n" or time.sleep(0.01) for _ in range(3000)))
            self.assertEqual(desk.tell("markers").text, "OK 1\nen:V:1:512:512:40:60 chip\n")
            desk.hang_up()
            self.assertEqual(served.end()[::2], (0, ""))

    def test_run(self):
        with service(2, 2) as served:
            desk = served.desk()
            grant_all(desk, "pad")
            self.assertEqual(desk.submit("pad", "PAD", layouts.pad()), 1)
            desk.deck(DECK)
            desk.place("pad", "p", "R0", 0, 0)
            self.assertEqual(desk.run(), 1)
            self.assertIs(desk.wait(poll=0.01, limit=LIMIT).state, State.FINISHED)
            self.assertEqual([str(marker.key) for marker in desk.markers().full], ["w:V:0:0:10:0:100"])
            with served.desk() as other:
                self.assertIs(other.status().state, State.FINISHED)
            desk.hang_up()
            self.assertEqual(served.end()[::2], (0, ""))

    def test_whole_shuttle(self):
        """The script of examples/shuttle.txt, each of its sessions on a connection of its own, up to the trail, which has the questions for
        the status too."""
        with open(os.path.join(TOP, "examples", "shuttle.replies"), encoding="ascii") as file:
            expected = replies_of(file.read().splitlines())
        with open(os.path.join(TOP, "examples", "shuttle.txt"), "rb") as file:
            sessions = sessions_of(file)
        with service(len(sessions), 4) as served:
            for session in sessions:
                with Desk.connect("127.0.0.1", served.port) as desk:
                    for line, payload in session:
                        found, wanted = desk.tell(line, payload), next(expected)
                        if line != "trail":
                            self.assertEqual(found.text, wanted, line)
                        if line == "run":
                            desk.wait(poll=0.01, limit=LIMIT)
            self.assertIsNone(next(expected, None))
            self.assertEqual(served.end()[::2], (0, ""))

    def test_firms_side_by_side(self):
        """Three firms, each by a process of its own: each submits its cell, waits for the run, and waives its marker."""
        firms = ("alpha", "beta", "gamma")
        with service(8, 3) as served, tempfile.TemporaryDirectory() as folder:
            with open(os.path.join(folder, "pad.gds"), "wb") as file:
                file.write(layouts.pad())
            officer = served.desk()
            grant_all(officer, *firms)
            for firm in firms:
                officer.adduser(firm, f"token-of-{firm}")
                officer.addrole(f"of-{firm}")
                officer.assign(firm, f"of-{firm}")
                for operation, about in ("submit", firm), ("read", firm), ("waive", "desk"):
                    officer.grant(operation, about, f"of-{firm}")

            def asked(firm, *lines):
                address = f"127.0.0.1:{served.port}"
                options = ["--user", firm, "--role", f"of-{firm}", "--wait", "--poll", ".01"]
                return subprocess.Popen(
                    [*ASK, address, *options, *lines], cwd=folder, env=environment(f"token-of-{firm}"),
                    stdin=subprocess.DEVNULL, stdout=subprocess.PIPE, stderr=subprocess.PIPE)

            def replies(processes):
                told = [process.communicate(timeout=LIMIT) for process in processes]
                return [(process.returncode, *map(bytes.decode, texts)) for process, texts in zip(processes, told)]

            submitted = replies([asked(firm, f"submit {firm} PAD @pad.gds", "cells") for firm in firms])
            self.assertEqual(submitted, [(0, f"OK 1\nversion 1\nOK 1\n{firm} 1 {firm}\n", "") for firm in firms])
            officer.deck(DECK)
            for place, firm in enumerate(firms):
                officer.place(firm, "p", "R0", 1000 * place, 0)
            officer.run()
            keys = [f"w:V:0:{1000 * place}:{1000 * place + 10}:0:100" for place in range(3)]
            found = replies([asked(firm, "markers", f"waive {key}") for firm, key in zip(firms, keys)])
            self.assertEqual(found, [(0, f"OK 1\n{key} {firm}\nOK 0\n", "") for firm, key in zip(firms, keys)])
            self.assertEqual([(str(waiver.key), waiver.asker) for waiver in officer.waivers()], list(zip(keys, firms)))
            for key in keys:
                officer.sign(key)
            self.assertEqual(officer.verdict().ruling.value, "clean")
            officer.hang_up()
            with served.connect():
                pass
            self.assertEqual(served.end()[::2], (0, ""))


class Clients(Served):
    def test_half_a_line(self):
        with service(1) as served:
            with served.connect() as end:
                end.sendall(b"open ro")
            # The connection's end alone, and the worker's.
            self.assert_calls(served.end(), 2, 3)

    def test_nothing_is_sent(self):
        with service(2, 1, "--idle", "1") as served:
            with served.connect() as silent:
                begun = time.monotonic()
                self.assertEqual(read_all(silent), b"")
                self.assertTrue(0.5 < time.monotonic() - begun < 10)
            with served.desk() as desk:
                self.assertEqual(desk.whoami().user, "root")
            self.assertEqual(served.end()[::2], (0, ""))

    def test_probe_is_no_call(self):
        """A client that connects and sends nothing makes no call."""
        with service(3) as served:
            for _ in range(2):
                served.connect().close()
            with served.connect() as end:
                end.sendall(b"whoami\n")
                self.assertEqual(end.recv(100), b"DENIED session\n")
            # A request and the connection's end, and the worker's calls for a job.
            self.assert_calls(served.end(), 3, 4)

    def test_garbage(self):
        with service(3) as served:
            for garbage, last in (b"\x00\xff\xfe GET / HTTP/1.1\r\n\r\n" * 3, b"REFUSED 40 form\n"), (b"x" * 5000, b"REFUSED 41 long\n"):
                with served.connect() as end:
                    end.sendall(garbage)
                    end.shutdown(socket.SHUT_WR)
                    self.assertTrue(read_all(end).endswith(last))
            with served.connect() as end:
                end.sendall(b"submit pad PAD 100\nabc")
                end.shutdown(socket.SHUT_WR)
                self.assertEqual(read_all(end), b"REFUSED 42 cut\n")
            self.assertEqual(served.end()[::2], (0, ""))

    def test_no_session(self):
        """What is asked before a session is denied, with its payload read and let go."""
        with service(1) as served:
            with Desk.connect("127.0.0.1", served.port) as desk:
                for _ in range(20):
                    with self.assertRaises(Denied):
                        desk.submit("pad", "PAD", bytes(2**20))
                with self.assertRaises(Denied):
                    desk.open("root", "abd")
            self.assertEqual(served.end()[::2], (0, ""))

    def test_who_reads_nothing(self):
        """No other connection waits for a listing of 2^20 boundaries that nobody reads."""
        array_of_bars = structure("TOP", array("BAR", 0, 0, 1024, 1024, 20))
        with service(2) as served:
            lazy, desk = served.desk(), served.desk()
            grant_all(desk, "big")
            desk.submit("big", "TOP", library(structure("BAR", box(1, 0, 0, 10, 10)), array_of_bars))
            lazy.channel.send(b"shapes big\n", LIMIT)
            waits = []
            for _ in range(50):
                begun = time.monotonic()
                desk.whoami()
                waits.append(time.monotonic() - begun)
                time.sleep(0.01)
            self.assertLess(max(waits), 5)
            lazy.hang_up()
            desk.hang_up()
            self.assertEqual(served.end()[::2], (0, ""))


class Pages(Served):
    """`mpw-page`, by the program's script."""

    def test_page_of_a_structure(self):
        with tempfile.TemporaryDirectory() as folder:
            paths = {name: os.path.join(folder, name) for name in ("pad.gds", "rules.deck", "out.html")}
            for name, data in ("pad.gds", layouts.pad()), ("rules.deck", DECK):
                with open(paths[name], "wb") as file:
                    file.write(data)

            def page(top="PAD", out="out.html"):
                options = ["--program", MPW, "--deck", paths["rules.deck"], "--top", top]
                ended = subprocess.run([PAGE, *options, paths["pad.gds"], paths[out]], stderr=subprocess.PIPE, timeout=LIMIT)
                return ended.returncode, ended.stderr.decode()

            self.assertEqual(page(), (0, ""))
            with open(paths["out.html"], encoding="ascii") as file:
                found = file.read()
            data = json.loads(re.search(r'id="data">(.*)</script>', found).group(1))
            self.assertEqual(data["markers"], ["w:V:0:0:10:0:100 PAD"])
            self.assertEqual(data["placements"], ["PAD top R0 0 0"])
            self.assertEqual([cell for cell, _ in data["shapes"]], ["PAD"])
            status, told = page(top="NONE")
            self.assertEqual((status, "REFUSED 20 notop" in told), (4, True), told)
            status, told = page(out="pad.gds")
            self.assertEqual((status, "isn't written over" in told), (4, True), told)
            with open(paths["pad.gds"], "rb") as file:
                self.assertEqual(file.read(), layouts.pad())


    @unittest.skipUnless(all(os.access(program, os.X_OK) for program in BUILT), "the programs aren't built")
    def test_option_of_a_check(self):
        """`mpw check` with --page: both ways to write it, and an input is never written over."""
        with tempfile.TemporaryDirectory() as folder:
            names = "pad.gds", "rules.deck", "one.html", "two.html"
            library_path, deck, one, two = (os.path.join(folder, name) for name in names)
            for path, data in (library_path, layouts.pad()), (deck, DECK):
                with open(path, "wb") as file:
                    file.write(data)

            def check(*page):
                words = [os.path.join(TOP, "mpw"), "check", "--deck", deck, "--top=PAD", *page, library_path]
                ended = subprocess.run(words, stdout=subprocess.PIPE, stderr=subprocess.PIPE, timeout=LIMIT)
                return ended.returncode, ended.stdout.decode()

            found = 1, "OK 1\nw:V:0:0:10:0:100 PAD\n"
            self.assertEqual((check("--page", one), check(f"--page={two}"), check(f"--page={library_path}")), (found, found, (2, "")))
            for path in one, two:
                with open(path, encoding="ascii") as file:
                    self.assertIn("w:V:0:0:10:0:100 PAD", file.read())
            with open(library_path, "rb") as file:
                self.assertEqual(file.read(), layouts.pad())


class Logs(Served):
    def test_log(self):
        """A line for each connection as it begins and ends and for each of its lines, without a token; after what the file has."""
        with tempfile.TemporaryDirectory() as folder:
            path = os.path.join(folder, "desk.log")
            with open(path, "w", encoding="ascii") as file:
                file.write("{}\n")
            with service(1, 1, "--log", path) as served:
                with Desk.connect("127.0.0.1", served.port) as desk:
                    for line in "open root wrong", "open root abc", "whoami", "no such line", "close":
                        desk.tell(line)
                self.assertEqual(served.end()[::2], (0, ""))
            with open(path, encoding="ascii") as file:
                text = file.read()
        first, *lines = map(json.loads, text.splitlines())
        self.assertEqual(first, {})
        self.assertEqual([line["event"] for line in lines], ["begin", *["request"] * 5, "end"])
        self.assertEqual([(line["user"], line["verb"], line["reply"], line["bytes"]) for line in lines[1:-1]], [
            (None, "open", "DENIED login", 13), ("root", "open", "OK 0", 5),
            ("root", "whoami", "OK 2", len("OK 2\nuser root\nauthorized officer\n")),
            ("root", None, "REFUSED 40 form", 16), ("root", "close", "OK 0", 5)])
        self.assertEqual(len({(line["connection"], line["peer"]) for line in lines}), 1)
        self.assertNotIn("abc", text)
        self.assertNotIn("wrong", text)

    def test_log_that_cannot_be_opened(self):
        ended = subprocess.run(
            words(1, 1, "--log", "/none/desk.log"), stdout=subprocess.PIPE, stderr=subprocess.PIPE, timeout=LIMIT)
        self.assertEqual((ended.returncode, ended.stdout), (3, b""))

    def test_log_that_fails(self):
        """The service goes on, and at its end it waits for two seconds."""
        with service(1, 1, "--log", "/dev/full") as served:
            with served.desk() as desk:
                self.assertEqual(desk.whoami().user, "root")
            status, _, told = served.end()
        self.assertEqual((status, told), (0, "error: the log can't be written\nwarning: the last lines of the log could not be written\n"))

    def test_log_that_is_moved(self):
        """The file is opened anew within a second or so. No line is lost or cut."""
        with tempfile.TemporaryDirectory() as folder:
            path, old = os.path.join(folder, "desk.log"), os.path.join(folder, "desk.log.1")
            with service(1, 1, "--log", path) as served:
                with served.connect() as end:
                    ask_whoami(end, 10)
                    await_events(path, 11)
                    os.rename(path, old)
                    ask_whoami(end, 10)
                    await_file(path)
                    ask_whoami(end, 10)
                self.assertEqual(served.end()[::2], (0, ""))
            first, second = events_of(old), events_of(path)
        self.assertEqual((first[0], second[-1], sorted({*first[1:], *second[:-1]})), ("begin", "end", ["request"]))
        self.assertEqual(len(first) + len(second), 32)
        self.assertTrue(len(first) >= 11 and len(second) >= 11, (len(first), len(second)))

    def test_log_that_is_removed(self):
        """A file of another's that is moved to the path is gone on with, and it isn't emptied."""
        with tempfile.TemporaryDirectory() as folder:
            path, other = os.path.join(folder, "desk.log"), os.path.join(folder, "other.log")
            with service(1, 1, "--log", path) as served:
                with served.connect() as end:
                    ask_whoami(end, 1)
                    os.unlink(path)
                    await_file(path)
                    with open(other, "w", encoding="ascii") as file:
                        file.write("{}\n")
                    os.rename(other, path)
                    time.sleep(2)
                    ask_whoami(end, 1)
                self.assertEqual(served.end()[::2], (0, ""))
            with open(path, encoding="ascii") as file:
                lines = [json.loads(line) for line in file]
        self.assertEqual([line.get("event") for line in lines], [None, "request", "end"])

    def test_log_that_is_cut(self):
        """After a copy the file is emptied, as by logrotate's copytruncate. The service goes on at its new end."""
        with tempfile.TemporaryDirectory() as folder:
            path, old = os.path.join(folder, "desk.log"), os.path.join(folder, "desk.log.1")
            with service(1, 1, "--log", path) as served:
                with served.connect() as end:
                    ask_whoami(end, 10)
                    await_events(path, 11)
                    shutil.copy(path, old)
                    os.truncate(path, 0)
                    ask_whoami(end, 10)
                self.assertEqual(served.end()[::2], (0, ""))
            self.assertEqual((events_of(old), events_of(path)), (["begin", *["request"] * 10], [*["request"] * 10, "end"]))

    def test_log_without_a_reader(self):
        """A pipe that nobody reads holds up neither the begin of a service nor its end."""
        with tempfile.TemporaryDirectory() as folder:
            path = os.path.join(folder, "desk.log")
            os.mkfifo(path)
            with service(1, 1, "--log", path) as served:
                with served.desk() as desk:
                    self.assertEqual(desk.whoami().user, "root")
                self.assertEqual(served.end()[::2], (0, ""))

    def test_log_with_a_late_reader(self):
        """While nobody reads, lines are dropped and clients are answered. A reader that comes gets the first lines, and at their place how many were dropped."""
        with tempfile.TemporaryDirectory() as folder:
            path = os.path.join(folder, "desk.log")
            os.mkfifo(path)
            with service(8, 1, "--log", path) as served:
                for _ in range(4):
                    with served.connect() as end:
                        ask_whoami(end, 4095)
                with open(path, encoding="ascii") as file:
                    lines = []
                    while not lines or lines[-1]["event"] != "dropped":
                        lines.append(json.loads(file.readline()))
                    for _ in range(4):
                        with served.connect() as end:
                            ask_whoami(end, 1)
                    lines += map(json.loads, file)
                self.assertEqual(served.end()[::2], (0, ""))
        dropped = [line["dropped"] for line in lines if line["event"] == "dropped"]
        self.assertEqual((len(dropped), len(lines) - 1 + dropped[0]), (1, 4 * 4097 + 4 * 3))
        self.assertTrue(1000 < dropped[0] < 12000, dropped)

    def test_log_that_nobody_reads_at_the_end(self):
        """With more lines than a pipe and the queue have room for, the service still ends, two seconds later."""
        with tempfile.TemporaryDirectory() as folder:
            path = os.path.join(folder, "desk.log")
            os.mkfifo(path)
            with service(4, 1, "--log", path) as served:
                for _ in range(4):
                    with served.connect() as end:
                        ask_whoami(end, 4095)
                begun = time.monotonic()
                self.assertEqual(served.end()[::2], (0, "warning: the last lines of the log could not be written\n"))
                self.assertTrue(1 < time.monotonic() - begun < 20)

    def test_standard_error_that_nobody_reads(self):
        with service(8, 1, "--log", "-") as served:
            for _ in range(4):
                with served.connect() as end:
                    ask_whoami(end, 4095)
            lines = []
            while not lines or lines[-1]["event"] != "dropped":
                lines.append(json.loads(served.process.stderr.readline()))
            for _ in range(4):
                with served.connect() as end:
                    ask_whoami(end, 1)
            lines += map(json.loads, served.process.stderr)
            status = served.process.wait(LIMIT)
        dropped = sum(line["dropped"] for line in lines if line["event"] == "dropped")
        self.assertEqual((status, len(lines) - 1 + dropped), (0, 4 * 4097 + 4 * 3))

    def test_log_on_a_full_disk(self):
        """When the disk has room again, the lines are written that waited, whole and in order."""
        with small_disk() as at:
            with open(at("ballast"), "wb", buffering=0) as file, suppress(OSError):
                while True:
                    file.write(bytes(4096))
            with service(2, 1, "--log", at("desk.log")) as served:
                with served.connect() as end:
                    ask_whoami(end, 1000)
                self.assertLess(os.path.getsize(at("desk.log")), 8192)
                os.unlink(at("ballast"))
                await_events(at("desk.log"), 1002)
                with served.connect() as end:
                    ask_whoami(end, 1)
                self.assertEqual(served.end()[::2], (0, "error: the log can't be written\n"))
            self.assertEqual(events_of(at("desk.log")), ["begin", *["request"] * 1000, "end", "begin", "request", "end"])


class Limits(Served):
    def test_one_client_more(self):
        with service(64) as served:
            ends = [served.connect() for _ in range(64)]
            for end in ends:
                end.sendall(b"whoami\n")
            for end in ends:
                self.assertEqual(end.recv(100), b"DENIED session\n")
            with self.assertRaises(OSError):
                with served.connect() as more:
                    more.sendall(b"whoami\n")
                    if not more.recv(100):
                        raise OSError
            for end in ends:
                end.close()
            self.assert_calls(served.end(), 129, 130)

    def test_ongoing(self):
        """One that ended makes room for another, without an end."""
        with service(2, 1, "--ongoing") as served:
            for _ in range(10):
                with served.desk() as one, served.desk() as another:
                    self.assertEqual(one.whoami().user, another.whoami().user)
            held = [served.desk(), served.desk()]
            waiting = served.connect()
            waiting.sendall(b"whoami\n")
            waiting.settimeout(0.3)
            with self.assertRaises(socket.timeout):
                waiting.recv(100)
            held[0].hang_up()
            waiting.settimeout(LIMIT)
            self.assertEqual(waiting.recv(100), b"DENIED session\n")
            waiting.close()
            held[1].hang_up()
            self.assertIsNone(served.process.poll())

    def test_history_that_is_full(self):
        """An ongoing service without a store ends by itself after its desk's 2^20 calls, which is a fault: the desk is lost."""
        with service(16, 1, "--ongoing") as served:
            asking = [threading.Thread(target=ask_until_the_end, args=(served,)) for _ in range(16)]
            for thread in asking:
                thread.start()
            status, printed, told = served.end()
            self.assertEqual((status, printed), (3, f"calls {2**20}\n"))
            self.assertIn("all its calls", told)
            for thread in asking:
                thread.join()

    def test_port_that_is_taken(self):
        with socket.create_server(("127.0.0.1", 0)) as taken:
            listen = f"127.0.0.1:{taken.getsockname()[1]}"
            ended = subprocess.run(words(1, listen=listen), stdout=subprocess.PIPE, stderr=subprocess.PIPE, timeout=LIMIT)
        self.assertEqual((ended.returncode, ended.stdout), (3, b""))
        self.assertIn(b"bound", ended.stderr)

    def test_usage(self):
        for connections, workers in (0, 1), (65, 1), (1, 0), (1, 17):
            ended = subprocess.run(
                words(connections, workers), stdout=subprocess.PIPE, stderr=subprocess.PIPE, timeout=LIMIT)
            self.assertEqual((ended.returncode, ended.stdout), (2, b""))

    def test_output_that_is_full(self):
        with open("/dev/full", "wb") as full:
            ended = subprocess.run(words(1), stdout=full, stderr=subprocess.PIPE, timeout=LIMIT)
        self.assertEqual(ended.returncode, 3)

    @unittest.skipUnless(os.geteuid() == 0, "only root takes the place of a user who has no thread left")
    def test_thread_that_cannot_be_started(self):
        def limited():
            resource.setrlimit(resource.RLIMIT_NPROC, (2, 2))
            os.setgid(NOBODY)
            os.setuid(NOBODY)

        with tempfile.TemporaryDirectory() as folder:
            os.chmod(folder, 0o755)
            program = os.path.join(folder, "mpw")
            with open(MPW, "rb") as given, open(program, "wb") as copy:
                copy.write(given.read())
            os.chmod(program, 0o755)
            ended = subprocess.run(
                [program, *words(8, 8)[1:]], stdout=subprocess.PIPE, stderr=subprocess.PIPE, timeout=LIMIT,
                preexec_fn=limited, cwd=folder)
        self.assertEqual(ended.returncode, 5)
        self.assertIn(b"thread", ended.stderr)
