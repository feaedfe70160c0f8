#!/usr/bin/env python3
"""Loads `mpw serve` over loopback, with Python's sockets alone.

  serve.py burst [CLIENTS] [AHEAD]      each client asks 4000 times `whoami`, AHEAD lines at a time; requests a second
  serve.py changes [CLIENTS] [TIMES]    each client adds a role and takes it away, so often: changes a second without a store, with one in the folder
                                        for temporary files, and with one in memory; and how often `whoami` is answered beside
  serve.py waits [SECONDS]              one client submits 16 MB again and again, another asks `whoami`; how long each waits
  serve.py mixed [SECONDS] [CLIENTS]    clients with cells, users and roles of their own, each compared with the model of
                                        model/, while another places, runs and waives; requests a second, the greatest waits,
                                        the program's memory, and which replies differ; then the history is filled,
                                        at which the service compares what its passes counted with it

The program is MPW_PROGRAM, else crates/mpw_main's, as the gate built it. The exit status is 1 if a reply differs, or a service ends otherwise than it has to. The
calls of a desk are bounded, so `mixed` asks at a rate that lasts. load.py compares two programs.
"""
import hashlib
import multiprocessing
import os
import random
import re
import socket
import subprocess
import sys
import tempfile
import threading
import time
from contextlib import contextmanager, suppress

HERE = os.path.dirname(os.path.abspath(__file__))
TOP = os.path.dirname(HERE)
sys.path[:0] = [os.path.join(TOP, "clients", "python", "tests"), os.path.join(TOP, "clients", "python"), os.path.join(TOP, "examples")]

import stand_in  # noqa: E402  (it brings the model)
from forms import request_of  # noqa: E402
from make import array, box, library, structure  # noqa: E402
from mpw_desk import Desk, Lost  # noqa: E402

MPW = os.environ.get("MPW_PROGRAM", os.path.join(TOP, "crates", "mpw_main", "out", "mpw_main"))
DIGEST = hashlib.sha256(b"abc")
TIMES = 4000
WHOAMI = b"OK 2\nuser root\nauthorized officer\n"
CALLS = 2**20
# What an ongoing service without a store reports once it has answered them.
FULL = "error: the desk has answered all its calls, and has no store to go on from: a new start is a new desk"
# All clients log in at once.
MANY_LOGINS = ["--stranger-rate", "10000"]
# How often a client connects again whose place a newcomer took before it had a session.
TRIES = 100
# Of each client: all of them share a shelf of 4096, which the model of one doesn't know.
SUBMISSIONS = 60
# Of an array of 64 by 64 bars, 10 nm wide under a rule of 11 and 10 nm above one another under one of 11.
MARKERS = 64 * 64 + 64 * 63


@contextmanager
def service(connections, workers, *more):
    """A service, with its port. If it is ongoing, it doesn't let clients wait that have no session yet."""
    words = ["serve", "--listen", "127.0.0.1:0", "--connections", str(connections), "--workers", str(workers)]
    words += ["--officer", "root", "--digest", DIGEST.hexdigest(), *more, *(MANY_LOGINS if "--ongoing" in more else [])]
    with subprocess.Popen([MPW, *words], stdout=subprocess.PIPE, stderr=subprocess.PIPE) as process:
        try:
            yield process, int(process.stdout.readline().decode().rpartition(":")[2])
        finally:
            process.kill()


def ended(process):
    """The exit status of a service, what it printed at its end, and what it reported, but for the note that it made a store."""
    printed, reported = process.communicate(timeout=120)
    reported = [line for line in reported.decode().splitlines() if not (line.startswith("mpw: ") and line.endswith(" is new"))]
    return process.returncode, printed.decode().strip(), "\n".join(reported)


def connected(port):
    end = socket.create_connection(("127.0.0.1", port), 60)
    end.setsockopt(socket.IPPROTO_TCP, socket.TCP_NODELAY, 1)
    return end


def read_exactly(end, count):
    while count > 0:
        found = end.recv(min(count, 1 << 16))
        if not found:
            raise SystemExit("the service closed a connection")
        count -= len(found)


# Bursts.


def ask_often(port, ahead, gate, told):
    """Asks as often as a connection may, so many lines at a time, and tells the longest wait."""
    with connected(port) as end:
        end.sendall(b"open root abc\n")
        read_exactly(end, len(b"OK 0\n"))
        gate.wait()
        longest = 0.0
        for _ in range(TIMES // ahead):
            begun = time.monotonic()
            end.sendall(b"whoami\n" * ahead)
            read_exactly(end, len(WHOAMI) * ahead)
            longest = max(longest, time.monotonic() - begun)
        told.put(longest)


def burst(clients=64, ahead=1):
    gate, told = multiprocessing.Barrier(clients + 1), multiprocessing.Queue()
    with service(clients, 1) as (process, port):
        asking = [multiprocessing.Process(target=ask_often, args=(port, ahead, gate, told)) for _ in range(clients)]
        for client in asking:
            client.start()
        gate.wait()
        begun = time.monotonic()
        longest = max(told.get() for _ in asking)
        taken = time.monotonic() - begun
        for client in asking:
            client.join()
        status, printed, _ = ended(process)
    asked = clients * (TIMES // ahead) * ahead
    print(f"{clients} clients, {ahead} lines ahead: {asked / taken:.0f} requests a second, greatest wait {1000 * longest:.0f} ms; {printed}")
    return status


# Changes, with a store and without.


def change_often(port, number, times, gate, told):
    """Adds a role and takes it away, so often, a line at a time, and tells the longest wait."""
    with connected(port) as end:
        end.sendall(b"open root abc\nactivate officer\n")
        read_exactly(end, 2 * len(b"OK 0\n"))
        gate.wait()
        longest = 0.0
        for _ in range(times):
            for verb in b"addrole", b"delrole":
                begun = time.monotonic()
                end.sendall(b"%s r%d\n" % (verb, number))
                read_exactly(end, len(b"OK 0\n"))
                longest = max(longest, time.monotonic() - begun)
        told.put(longest)


def changes_over(clients, times, *store):
    """How many changes a second a service answers, the longest wait, how many questions a client that only asks had answered meanwhile, and whether the
    service ended well."""
    gate, told = multiprocessing.Barrier(clients + 1), multiprocessing.Queue()
    with service(clients + 1, 1, *store) as (process, port):
        asking = [multiprocessing.Process(target=change_often, args=(port, number, times, gate, told)) for number in range(clients)]
        for client in asking:
            client.start()
        with connected(port) as end:
            end.sendall(b"open root abc\n")
            read_exactly(end, len(b"OK 0\n"))
            gate.wait()
            begun, asked, waits = time.monotonic(), 0, []
            while len(waits) < clients:
                if asked < TIMES - 10:
                    end.sendall(b"whoami\n")
                    read_exactly(end, len(WHOAMI))
                    asked += 1
                    lasted = time.monotonic() - begun
                while not told.empty():
                    waits.append(told.get())
            taken = time.monotonic() - begun
        for client in asking:
            client.join()
        status, *_ = ended(process)
    return 2 * clients * times / taken, max(waits), asked / lasted, status


def changes(clients=8, times=250):
    failed = 0
    with tempfile.TemporaryDirectory() as folder, tempfile.TemporaryDirectory(dir="/dev/shm") as memory:
        for name, store in ("no store", []), (f"a store in {os.path.dirname(folder)}", ["--store", os.path.join(folder, "desk.db")]), ("a store in memory", ["--store", os.path.join(memory, "desk.db")]):
            rate, longest, questions, status = changes_over(clients, times, *store)
            print(f"{clients} clients, {name}: {rate:.0f} changes a second, greatest wait {1000 * longest:.0f} ms, and {questions:.0f} questions a second of one more; status {status}")
            failed += status != 0
    return failed


# Waits beside a large step.


def large_library():
    """Almost 2^24 bytes of boundaries in a row."""
    squares = (2**24 - 1024) // len(box(1, 0, 0, 10, 10))
    return library(structure("TOP", *(box(1, 20 * (k % 1000), 20 * (k // 1000), 20 * (k % 1000) + 10, 20 * (k // 1000) + 10) for k in range(squares))))


def waits(seconds=30):
    data = large_library()
    steps, quick, alone = [], [], []
    with service(2, 1) as (process, port):
        desk, other = Desk.connect("127.0.0.1", port), Desk.connect("127.0.0.1", port)
        for end in desk, other:
            end.open("root", "abc")
            end.activate("officer")
        desk.grant("submit", "big", "officer")

        def submit(until):
            while time.monotonic() < until:
                begun = time.monotonic()
                desk.submit("big", "TOP", data)
                steps.append(time.monotonic() - begun)

        def ask(until, found):
            while time.monotonic() < until:
                begun = time.monotonic()
                other.whoami()
                found.append(time.monotonic() - begun)
                time.sleep(0.01)

        ask(time.monotonic() + 3, alone)
        until = time.monotonic() + seconds
        submitting = threading.Thread(target=submit, args=(until,))
        submitting.start()
        ask(until, quick)
        submitting.join()
        desk.hang_up()
        other.hang_up()
        status, printed, _ = ended(process)
    quick.sort()
    alone.sort()
    print(f"{len(data)} bytes submitted {len(steps)} times, {1000 * sorted(steps)[len(steps) // 2]:.0f} ms each at the median")
    for name, found in ("alone", alone), ("beside", quick):
        print(f"whoami {name}: {len(found)} times, median {1000 * found[len(found) // 2]:.2f} ms, of 100 the 99th {1000 * found[len(found) * 99 // 100]:.2f} ms, greatest {1000 * found[-1]:.1f} ms")
    print(printed)
    return status


# Mixed requests beside the model.


class Compared:
    """A client with a user, a role and a cell of its own, and the model of a desk that has these alone."""

    def __init__(self, port, number):
        self.port, self.number, self.random = port, number, random.Random(number)
        self.user, self.role, self.cell = f"u{number}", f"r{number}", f"c{number}"
        self.model, self.session = stand_in.model.Desk("root", DIGEST.digest()), None
        self.end, self.given, self.asked, self.longest, self.differs, self.submissions = None, None, 0, 0.0, [], 0

    def expected(self, line, payload):
        policy = self.model.policy
        policy.session = self.session
        try:
            reply = self.model.ask(request_of(line.encode()), payload)
        finally:
            self.session = policy.session
        return reply

    def ask(self, line, payload=None):
        begun = time.monotonic()
        self.end.sendall(line.encode() + b"\n" + (payload or b""))
        first = self.given.readline().decode().rstrip("\n")
        if not first:
            raise ConnectionError
        count = int(first.split()[1]) if first.startswith("OK ") else 0
        reply = [first, *(self.given.readline().decode().rstrip("\n") for _ in range(count))]
        self.longest = max(self.longest, time.monotonic() - begun)
        self.asked += 1
        if reply != self.expected(line, payload):
            self.differs.append((line, reply[:3]))

    def connect(self):
        self.end, self.session = connected(self.port), None
        self.given = self.end.makefile("rb")

    def hang_up(self):
        self.given.close()
        self.end.close()

    def log_in(self, line):
        """Connects, and begins a session; again, if a newcomer took its place before it had one."""
        for _ in range(TRIES):
            self.connect()
            with suppress(ConnectionError):
                self.ask(line)
                return
            self.hang_up()
        raise SystemExit("a client found no place")

    def set_up(self):
        self.log_in("open root abc")
        self.ask("activate officer")
        self.ask(f"adduser {self.user} token")
        self.ask(f"addrole {self.role}")
        self.ask(f"assign {self.user} {self.role}")
        for operation in "submit", "read":
            self.ask(f"grant {operation} {self.cell} {self.role}")
        self.hang_up()

    def one_turn(self):
        kind = self.random.randrange(10)
        if kind < 3:
            self.ask("whoami")
        elif kind < 5:
            self.ask(f"shapes {self.cell}")
        elif kind == 5:
            self.ask(f"shapes c{self.number + 1}")
        elif kind == 6 and self.submissions < SUBMISSIONS:
            self.submissions += 1
            data = library(structure("TOP", *(box(1, 20 * k, 0, 20 * k + 10, 10) for k in range(self.random.randrange(1, 40)))))
            self.ask(f"submit {self.cell} TOP {len(data)}", data)
        elif kind == 7:
            self.ask(f"drop {self.role}")
            self.ask(f"activate {self.role}")
        elif kind == 8:
            self.ask("cells")
        else:
            self.as_officer()

    def as_officer(self):
        self.ask("close")
        self.ask("open root abc")
        self.ask("activate officer")
        self.ask(f"grant use {self.cell} {self.role}")
        self.ask(f"revoke use {self.cell} {self.role}")
        self.ask("close")
        self.ask(f"open {self.user} token")
        self.ask(f"activate {self.role}")

    def go(self, until, pause):
        """Connections of so many lines, one after the other, until the time is over."""
        while time.monotonic() < until:
            self.log_in(f"open {self.user} token")
            self.ask(f"activate {self.role}")
            for _ in range(300):
                if time.monotonic() >= until:
                    break
                self.one_turn()
                time.sleep(self.random.random() * 2 * pause)
            self.hang_up()


def compared(port, numbers, until, pause, told):
    clients = [Compared(port, number) for number in numbers]
    for client in clients:
        client.set_up()
    going = [threading.Thread(target=client.go, args=(until, pause)) for client in clients]
    for thread in going:
        thread.start()
    for thread in going:
        thread.join()
    told.put([(client.asked, client.longest, client.differs) for client in clients])


def officer(port):
    """A connection with a session of the officer; it is made again if a newcomer took its place before."""
    for _ in range(TRIES):
        desk = Desk.connect("127.0.0.1", port)
        with suppress(Lost):
            desk.open("root", "abc")
            desk.activate("officer")
            return desk
        desk.hang_up()
    raise SystemExit("the officer found no place")


def runs(port, until):
    """Places an array, runs, and waives and signs some markers, again and again; how many runs, how long `run` took to be finished."""
    library_bytes = library(
        structure("BAR", box(1, 0, 0, 10, 40)), structure("TOP", array("BAR", 0, 0, 64, 64, 50)))
    taken = []
    desk = officer(port)
    for operation in "submit", "read", "place":
        desk.grant(operation, "array", "officer")
    for operation in "deck", "run", "waive":
        desk.grant(operation, "desk", "officer")
    desk.submit("array", "TOP", library_bytes)
    desk.deck(b"tile 512\nwidth w 1/0 11\nspace s 1/0 11\n")
    desk.place("array", "a", "R0", 0, 0)
    lines = 0
    while time.monotonic() < until and lines < 3000:
        begun = time.monotonic()
        desk.run()
        desk.wait(poll=0.02, limit=120)
        taken.append(time.monotonic() - begun)
        found = desk.markers().full
        if len(found) != MARKERS:
            raise SystemExit(f"{len(found)} markers in place of {MARKERS}")
        for marker in found[:20]:
            desk.waive(marker.key)
        lines += 60
        time.sleep(1)
    desk.hang_up()
    return taken


def fill(port):
    """Asks at full speed, connection after connection, until the history is full and nobody listens."""
    with suppress(OSError):
        while True:
            with connected(port) as end:
                end.sendall(b"open root abc\n" + b"whoami\n" * TIMES)
                end.shutdown(socket.SHUT_WR)
                while end.recv(1 << 16):
                    pass


def memory_of(process):
    with open(f"/proc/{process.pid}/status", encoding="ascii") as file:
        return int(re.search(r"VmRSS:\s+([0-9]+)", file.read()).group(1)) // 1024


def mixed(seconds=600, clients=62):
    pause = max(0.002, 2.2 * seconds * clients / (0.7 * CALLS))
    told, parts = multiprocessing.Queue(), min(8, clients)
    with service(64, 16, "--ongoing") as (process, port):
        until = time.monotonic() + seconds
        numbers = [range(part, clients, parts) for part in range(parts)]
        asking = [multiprocessing.Process(target=compared, args=(port, its, until, pause, told)) for its in numbers]
        begun = time.monotonic()
        for part in asking:
            part.start()
        sizes = []
        watching = threading.Thread(target=lambda: [sizes.append(memory_of(process)) or time.sleep(seconds / 10) for _ in range(10)])
        watching.start()
        taken = runs(port, until)
        found = [client for _ in asking for client in told.get()]
        watching.join()
        lasted = time.monotonic() - begun
        for part in asking:
            part.join()
        fill(port)
        status, printed, reported = ended(process)
    asked, longest = sum(client[0] for client in found), max(client[1] for client in found)
    print(f"{clients} clients and one that runs, {lasted:.0f} s: {asked} requests, {asked / lasted:.0f} a second, greatest wait {1000 * longest:.0f} ms")
    print(f"{len(taken)} runs, the longest {max(taken):.2f} s; memory in MB: {' '.join(map(str, sizes))}")
    differing = [pair for client in found for pair in client[2]]
    for line, reply in differing[:10]:
        print(f"differs: {line}: {reply}")
    print(f"{len(differing)} replies differ from the model's; filled up, the service printed '{printed}', reported '{reported}' and ended with {status}")
    return 1 if differing or (status, printed, reported) != (3, f"calls {CALLS}", FULL) else 0


def main(words):
    kinds = {"burst": burst, "changes": changes, "waits": waits, "mixed": mixed}
    if not words or words[0] not in kinds or not all(word.isdigit() for word in words[1:]):
        sys.exit(__doc__)
    return kinds[words[0]](*map(int, words[1:]))


if __name__ == "__main__":
    sys.exit(main(sys.argv[1:]))
