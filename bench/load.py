#!/usr/bin/env python3
"""Compares how fast two programs serve on 127.0.0.1, by turns: the old one, the new one, and again.

  load.py turns OLD NEW [ROUNDS] [WORD ..]   replies a second, their times, and the processor's time for each; a WORD picks cases: whoami, cells, markers,
                                             changes, submit, ahead; 1, 16, 64 (clients); store, none; limits, free
  load.py memory OLD NEW [ROUNDS]            resident memory with idle connections, and after 100,000 requests
  load.py flood OLD NEW [ROUNDS]             how long users wait while strangers send what they can

OLD and NEW are built programs of mpw_main. Clients have a session, and each waits for its reply before it asks again; `ahead` asks 50 lines at a time. `limits` is a
service with --ongoing, which limits strangers in a program that can, and `free` one without. Each figure is of a service of its own, with 64 places and a worker. `cc`
builds load.c, which asks. Other work on the machine changes every figure, but both programs alike: compare ratios alone. A figure is the median of the rounds,
and a ratio the median of the ratios of the rounds. Each round is printed on the standard error.
"""
import itertools
import os
import socket
import statistics
import struct
import subprocess
import sys
import tempfile
import threading
import time
from contextlib import contextmanager, nullcontext, suppress
from typing import NamedTuple

HERE = os.path.dirname(os.path.abspath(__file__))
sys.path.append(os.path.join(os.path.dirname(HERE), "examples"))

from make import array, box, library, structure  # noqa: E402

DIGEST = "ba7816bf8f01cfea414140de5dae2223b00361a396177a9cb410ff61f20015ad"
SESSION = [b"open root abc\n", b"activate officer\n"]
PLACES = 64
KINDS = "whoami", "cells", "markers", "changes", "submit", "ahead"
CLIENTS = "1", "16", "64"
STORES = "none", "store"
LIMITS = "free", "limits"
# How many lines a case asks in all. A connection may ask 4096, of which some begin its session.
ASKED = {"1": 6000, "16": 24000, "64": 32000}
MOST_LINES = 3800
# Of each program: replies a second, the median and the 99th percentile of their times in µs, and the processor's µs for each.
FIGURES = "rate", "median", "last", "cost"


class Case(NamedTuple):
    """What is measured."""

    kind: str
    clients: str
    store: str
    limits: str

    def lines(self):
        """How many requests each client sends on a connection, and on how many connections one after the other."""
        asked = ASKED[self.clients]
        if self.kind == "submit" or self.kind == "changes" and self.store == "store":
            asked //= 20
        each = asked // int(self.clients)
        turns = -(-each // MOST_LINES)
        return each // turns // 2 * 2, turns


def pack(clients):
    """The plan of load.c: for each client the requests that begin its session, and those that follow."""
    parts = [struct.pack("=I", len(clients))]
    for begin, requests in clients:
        parts.append(struct.pack("=II", len(begin), len(requests)))
        parts += [struct.pack("=I", len(it)) + it for it in [*begin, *requests]]
    return b"".join(parts)


def submitted(cell, data):
    return b"submit %s TOP %d\n" % (cell, len(data)) + data


def filled():
    """The requests that give a desk eight cells, and a finished run with 28 markers."""
    cells = [b"c%d" % k for k in range(8)]
    grants = [b"grant %s %s officer\n" % (it, cell) for cell in cells for it in (b"submit", b"read", b"place")]
    grants += [b"grant %s desk officer\n" % it for it in (b"deck", b"run")]
    bars = library(structure("BAR", box(1, 0, 0, 10, 40)), structure("TOP", array("BAR", 0, 0, 4, 4, 50)))
    deck = b"tile 512\nwidth w 1/0 11\nspace s 1/0 11\n"
    wafer = [b"deck %d\n" % len(deck) + deck, b"place c0 a R0 0 0\n", b"run\n", b"status\n"]
    return [*grants, *(submitted(cell, bars) for cell in cells), *wafer]


def requests_of(case, number, count):
    """What a client asks."""
    if case.kind == "changes":
        return [b"addrole r%d\n" % number, b"delrole r%d\n" % number] * (count // 2)
    if case.kind == "submit":
        rows = library(structure("TOP", *(box(1, 20 * k, 0, 20 * k + 10, 10) for k in range(1000))))
        return [submitted(b"c%d" % (number % 8), rows)] * count
    return [{"cells": b"cells\n", "markers": b"markers\n"}.get(case.kind, b"whoami\n")] * count


def options_of(program, limits):
    """The words of a service with limits for strangers, which let all clients log in at once, or without."""
    if limits == "free":
        return []
    told = subprocess.run([program, "serve", "--help"], capture_output=True, text=True).stderr
    return ["--ongoing", *(["--stranger-rate", "10000"] if "--stranger-rate" in told else [])]


@contextmanager
def service(program, *more):
    words = [program, "serve", "--listen", "127.0.0.1:0", "--connections", str(PLACES), "--workers", "1", "--officer", "root", "--digest", DIGEST, *more]
    with subprocess.Popen(words, stdout=subprocess.PIPE, stderr=subprocess.DEVNULL) as process:
        try:
            yield process, int(process.stdout.readline().decode().rpartition(":")[2])
        finally:
            process.kill()


@contextmanager
def stored(store):
    """The words that name a new store, if there is one."""
    with tempfile.TemporaryDirectory() as folder:
        yield ["--store", os.path.join(folder, "desk.db")] if store == "store" else []


def busy(process):
    """The seconds for which the processors worked for a program, its threads that ended included."""
    with open(f"/proc/{process.pid}/stat", encoding="ascii") as file:
        fields = file.read().rpartition(")")[2].split()
    return (int(fields[11]) + int(fields[12])) / os.sysconf("SC_CLK_TCK")


def resident(process):
    """The resident memory of a program in MB, now and at most."""
    with open(f"/proc/{process.pid}/status", encoding="ascii") as file:
        found = dict(line.split(":", 1) for line in file)
    return [int(found[it].split()[0]) / 1024 for it in ("VmRSS", "VmHWM")]


class Asking:
    """Clients with a session, that ask once `go` is called."""

    def __init__(self, load, port, plan, ahead=1):
        threads = min(2, struct.unpack("=I", plan[:4])[0])
        self.process = subprocess.Popen([load, "ask", str(port), str(threads), str(ahead)], stdin=subprocess.PIPE, stdout=subprocess.PIPE)
        self.process.stdin.write(plan)
        self.process.stdin.flush()
        if self.process.stdout.readline() != b"ready\n":
            sys.exit("the clients can't log in")

    def go(self):
        """Seconds, replies, the median, the 99th percentile and the greatest of their times in µs, and how many weren't OK."""
        self.process.stdin.write(b"\n")
        self.process.stdin.flush()
        found = self.process.stdout.readline()
        if not found:
            sys.exit("the clients failed")
        return [float(it) for it in found.split()]

    def __enter__(self):
        return self

    def __exit__(self, *_):
        """All clients leave."""
        self.process.stdin.close()
        self.process.wait()
        self.process.stdout.close()


def measured(load, program, case):
    """The figures of a case."""
    count, turns = case.lines()
    seconds = asked = used = 0
    medians, lasts = [], []
    with stored(case.store) as store, service(program, *options_of(program, case.limits), *store) as (process, port):
        for turn in range(turns):
            begins = [SESSION + (filled() if turn == 0 and number == 0 else []) for number in range(int(case.clients))]
            plan = pack([(begin, requests_of(case, number, count)) for number, begin in enumerate(begins)])
            with Asking(load, port, plan, 50 if case.kind == "ahead" else 1) as asking:
                before = busy(process)
                took, replies, median, last, _, failed = asking.go()
                used += busy(process) - before
            if failed:
                sys.exit(f"{failed:.0f} replies of {case} weren't OK")
            seconds, asked = seconds + took, asked + replies
            medians.append(median)
            lasts.append(last)
    return asked / seconds, statistics.median(medians), statistics.median(lasts), 1e6 * used / asked


def by_turns(programs, cases, rounds, measure):
    """The figures of each case and of both programs, of each round."""
    found = {(case, name): [] for case in cases for name in programs}
    for turn in range(rounds):
        for case in cases:
            for name in list(programs) if turn % 2 == 0 else reversed(list(programs)):
                figures = measure(programs[name], case)
                found[case, name].append(figures)
                print(turn, " ".join(case), name, " ".join(f"{it:.1f}" for it in figures), file=sys.stderr, flush=True)
    return found


def middles(rounds):
    """The medians of each figure."""
    return [statistics.median(it) for it in zip(*rounds)]


def ratios(old, new):
    """The medians of the ratios of each figure, round by round."""
    return [statistics.median(b / a for a, b in zip(*pair)) for pair in zip(zip(*old), zip(*new))]


def turns(load, programs, rounds, words):
    picked = [[it for it in group if it in words] or group for group in (KINDS, CLIENTS, STORES, LIMITS)]
    cases = [Case(*it) for it in itertools.product(*picked)]
    found = by_turns(programs, cases, rounds, lambda program, case: measured(load, program, case))
    print("| Requests | Clients | Store | Strangers | A second: old, new | Ratio | Median, old, new | Ratio | 99th percentile, old, new | Ratio | Processor for each, old, new | Ratio |")
    print("|-|-|-|-|-|-|-|-|-|-|-|-|")
    for case in cases:
        old, new = found[case, "old"], found[case, "new"]
        pairs = zip(middles(old), middles(new), ratios(old, new), ("", " µs", " µs", " µs"))
        print("| " + " | ".join([*case, *(f"{a:,.0f}, {b:,.0f}{unit} | {ratio:.2f}" for a, b, ratio, unit in pairs)]) + " |")


def memory_of(load, program, clients):
    """The resident memory of a service in MB with so many idle connections, after 100,000 requests of them, and at most."""
    turns = -(-100000 // (clients * MOST_LINES))
    each = -(-100000 // (clients * turns))
    idle = None
    with service(program, *options_of(program, "limits")) as (process, port):
        for _ in range(turns):
            with Asking(load, port, pack([(SESSION, [b"whoami\n"] * each)] * clients)) as asking:
                idle = idle or resident(process)[0]
                asking.go()
                last = resident(process)
        return [idle, *last]


def memory(load, programs, rounds, _):
    cases = [("16",), ("64",)]
    found = by_turns(programs, cases, rounds, lambda program, case: memory_of(load, program, int(case[0])))
    print("| Connections | Program | Idle | After 100,000 requests | At most |")
    print("|-|-|-|-|-|")
    for case in cases:
        for name in programs:
            print(f"| {case[0]} | {name} | " + " | ".join(f"{it:.1f} MB" for it in middles(found[case, name])) + " |")


# Strangers.


@contextmanager
def asking_strangers(load, port):
    """200 connections without a session that ask 16 lines at once, again and again, and connect again once they are closed."""
    with subprocess.Popen([load, "flood", str(port), "600"], stdin=subprocess.PIPE) as process:
        process.stdin.write(pack([([], [b"whoami\n"] * 16)] * 200))
        process.stdin.flush()
        yield
        process.kill()


def pay_slowly(port, is_over):
    """16 connections without a session that send a payload at 1000 bytes a second each, and connect again once they are closed."""
    ends = [None] * 16
    while not is_over.wait(0.1):
        for number, end in enumerate(ends):
            try:
                if end is None:
                    ends[number] = socket.create_connection(("127.0.0.1", port), 1)
                    ends[number].sendall(b"submit c TOP 16777216\n")
                else:
                    end.sendall(bytes(100))
            except OSError:
                ends[number] = None


@contextmanager
def paying_strangers(_, port):
    is_over = threading.Event()
    thread = threading.Thread(target=pay_slowly, args=(port, is_over))
    thread.start()
    yield
    is_over.set()
    thread.join()


STRANGERS = {"none": lambda *_: nullcontext(), "asking": asking_strangers, "paying": paying_strangers}
# How long a user tries to log in, in seconds.
PATIENCE = 10


def login_time(port):
    """How many seconds a user needs for a login, who connects again once it is closed."""
    begun = time.monotonic()
    while time.monotonic() - begun < PATIENCE:
        with suppress(OSError), socket.create_connection(("127.0.0.1", port), PATIENCE) as end:
            end.settimeout(max(0.1, begun + PATIENCE - time.monotonic()))
            end.sendall(SESSION[0])
            if end.recv(100) == b"OK 0\n":
                return time.monotonic() - begun
    return PATIENCE


def flooded(load, program, users, strangers):
    """Of users next to strangers: replies a second, the median, the 99th percentile and the greatest of their times in µs, and the seconds of one more login, or 0 if
    there is no place for it."""
    with service(program, "--ongoing") as (_, port):
        plan = pack([(SESSION, [b"whoami\n"] * (ASKED["64"] // users))] * users)
        with Asking(load, port, plan) as asking, STRANGERS[strangers](load, port):
            time.sleep(1)
            seconds, replies, *times, _ = asking.go()
            login = login_time(port) if users < PLACES else 0
    return replies / seconds, *times, login


def flood(load, programs, rounds, _):
    cases = [(users, strangers) for users in ("64", "40") for strangers in STRANGERS]
    found = by_turns(programs, cases, rounds, lambda program, case: flooded(load, program, int(case[0]), case[1]))
    print("| Users | Strangers | Program | A second | Median | 99th percentile | Greatest | A login |")
    print("|-|-|-|-|-|-|-|-|")
    for case in cases:
        for name in programs:
            rate, median, last, greatest, login = middles(found[case, name])
            print(f"| {' | '.join(case)} | {name} | {rate:,.0f} | {median / 1000:.2f} ms | {last / 1000:.2f} ms | {greatest / 1000:.1f} ms | {login:.2f} s |")


def main(words):
    kinds = {"turns": turns, "memory": memory, "flood": flood}
    if len(words) < 3 or words[0] not in kinds:
        sys.exit(__doc__)
    rounds = int(words[3]) if len(words) > 3 else 5
    with tempfile.TemporaryDirectory() as folder:
        load = os.path.join(folder, "load")
        subprocess.run(["cc", "-O2", "-pthread", "-o", load, os.path.join(HERE, "load.c")], check=True)
        kinds[words[0]](load, {"old": os.path.abspath(words[1]), "new": os.path.abspath(words[2])}, rounds, words[4:])


if __name__ == "__main__":
    main(sys.argv[1:])
