#!/usr/bin/env python3
"""What the built program does for one who wants to hurt it.

  hostile.py end                 the end of a history, reached by one script of some 1100 lines
  hostile.py devices [--jobs J]  each read and each write of a session refused in turn, one byte at a time, and writers that take nothing
  hostile.py shelf               4092 submissions, each refused: which memory the history keeps of them
  hostile.py secrets [PAIRS]     pairs of desks that differ in what a secret cell shows, and what a session without permissions is told
  hostile.py flood               what clients without a session make the service hold: payloads of 2^24 bytes, eight at once, and one after the other without end
  hostile.py cancel [SECONDS]    runs over layouts that cover or find far more than they say: how long `cancel` waits, and how long the workers go on

What is expected stands here, made by hand from docs/specification. The program is MPW_PROGRAM, else the one that the gate built; refuse.c stands before its calls
of the C library where devices fail. The exit status is 1 where something isn't as it has to be.
"""
import argparse
import multiprocessing
import os
import re
import resource
import signal
import socket
import subprocess
import sys
import tempfile
import threading
import time
from collections import Counter
from contextlib import contextmanager
from random import Random

import memory
import store

sys.path.append(os.path.join(store.TOP, "examples"))

from make import AREF, BOUNDARY, COLROW, DATATYPE, ENDEL, LAYER, SNAME, XY, box, library, long, placed, record, short, structure  # noqa: E402
from make import text as padded  # noqa: E402

CALLS = 2**20
LIMIT = 600


def serve(text, **more):
    """What a script is answered, the exit status, and what was told of faults."""
    ended = subprocess.run(memory.script_words(), input=text, capture_output=True, timeout=LIMIT, **more)
    return ended.stdout, ended.returncode, store.faults_in(ended.stderr)


class Script:
    """Lines, and what they have to be answered."""

    def __init__(self):
        self.text, self.expected = b"", b""

    def ask(self, line, *reply, payload=None, times=1):
        self.text += (line + b"\n" if payload is None else b"%s %d\n" % (line, len(payload)) + payload) * times
        self.expected += b"".join(it + b"\n" for it in reply) * times

    def compare(self, name):
        begun = time.monotonic()
        told, status, faults = serve(self.text)
        is_right = (told, status, faults) == (self.expected, 0, "")
        print(f"{name}: {len(self.text)} bytes in {time.monotonic() - begun:.1f} s, {'as expected' if is_right else 'DIFFERS'}", flush=True)
        if not is_right:
            pairs = zip(told.splitlines() + [b"(no line)"], self.expected.splitlines() + [b"(no line)"])
            print(f"  status {status} {faults!r}", next((place, pair) for place, pair in enumerate(pairs, 1) if pair[0] != pair[1]))
        return 0 if is_right else 1


# The end of a history.


def begun(script, deck):
    """An officer who places a square of 16383 nm under a deck; how many calls that is."""
    ok = b"OK 0"
    script.ask(b"open root abc", ok)
    script.ask(b"activate officer", ok)
    for word in (b"submit", b"read", b"place"):
        script.ask(b"grant %s chip officer" % word, ok)
    for word in (b"deck", b"run", b"audit"):
        script.ask(b"grant %s desk officer" % word, ok)
    script.ask(b"submit chip TOP", b"OK 1", b"version 1", payload=library(structure("TOP", box(1, 0, 0, 16383, 16383))))
    script.ask(b"place chip a R0 0 0", b"OK 1", b"version 1")
    script.ask(b"deck", ok, payload=deck)
    return 11


def calls_of(tiles):
    """A run over so many tiles: the request, a call for the cut and its windows, and for each tile a call and its markers."""
    return 1 + 2 + 2 * tiles


def at_the_end(script):
    """What is asked of a desk whose history is at its limit."""
    for line in (b"whoami", b"close", b"status", b"cells", b"trail", b"run", b"cancel", b"adduser ann abc", b"open root abc"):
        script.ask(line, b"REFUSED 46 ended")
    script.ask(b"submit chip TOP", b"REFUSED 46 ended", payload=b"no library")
    # What is no request reaches no desk.
    script.ask(b"whoami now", b"REFUSED 40 form")
    script.ask(b"whoami", b"REFUSED 46 ended")


def end(_jobs):
    """16383 / 256 + 1 = 64 columns and rows: 4096 tiles. 16383 / 278 + 1 = 59: 3481 tiles."""
    exactly, within = Script(), Script()
    wrong = 0
    for script in exactly, within:
        calls = begun(script, b"tile 256\nspace sp 1/0 5\n")
        for number in range(1, 128):
            script.ask(b"run", b"OK 1", b"run %d" % number)
            calls += calls_of(4096)
    # The last call of the history is answered, and none after it.
    exactly.ask(b"deck", b"OK 0", payload=b"tile 278\nspace sp 1/0 5\n")
    exactly.ask(b"run", b"OK 1", b"run 128")
    exactly.ask(b"status", b"OK 1", b"finished 128")
    left = CALLS - (calls + 1 + calls_of(3481) + 1)
    exactly.ask(b"whoami", b"OK 3", b"user root", b"active officer", b"authorized officer", times=left)
    at_the_end(exactly)
    wrong += exactly.compare(f"{CALLS} calls, of which {left} are the last")
    # A run whose work is cut off by the end.
    within.ask(b"run", b"OK 1", b"run 128")
    assert calls + 1 < CALLS < calls + calls_of(4096)
    at_the_end(within)
    return wrong + within.compare("an end within a run")


# Devices.


def session():
    """A whole shuttle with its run."""
    return memory.example("shuttle")


def with_shim(shim, **more):
    return {**os.environ, "LD_PRELOAD": shim, **{name: str(value) for name, value in more.items()}}


def is_sentence(faults):
    return re.fullmatch(r"error: [^\n]+\n", faults) is not None


def try_device(task):
    """The Nth call of a device fails, or takes nothing: then what was written is a front of the replies, and a sentence tells it, with status 3."""
    shim, what, place, good, slow = task
    told, status, faults = serve(session(), env=with_shim(shim, SHORT_IO=slow, **{what: place}))
    if status == 3 and is_sentence(faults) and good.startswith(told):
        return "front"
    if (status, faults, told) == (0, "", good):
        return "whole"
    return f"{what} at {place}: status {status}, {faults[:100]!r}, {len(told)} bytes"


def io_calls(shim, **more):
    with tempfile.NamedTemporaryFile() as report:
        told, status, faults = serve(session(), env=with_shim(shim, REFUSE_REPORT=report.name, **more))
        return int(report.read().split()[1]), (told, status, faults)


def devices(jobs):
    wrong = 0
    good = serve(session())
    with memory.library_of_refusals() as shim, multiprocessing.Pool(jobs) as pool:
        for slow in 0, 1:
            calls, outcome = io_calls(shim, SHORT_IO=slow)
            print(f"{'one byte at a time' if slow else 'as ever'}: {calls} reads and writes, {'the same replies' if outcome == good else 'DIFFERS'}", flush=True)
            wrong += outcome != good
            for what in "FAIL_IO", "NOTHING_IO":
                found = pool.map(try_device, [(shim, what, place, good[0], slow) for place in range(1, calls + 1)], 16)
                odd = [it for it in found if it not in ("front", "whole")]
                wrong += len(odd)
                print(f"  {what} at each of them: {found.count('front')} times a front of the replies, status 3 and a sentence; {found.count('whole')} times all of them; "
                      f"{len(odd)} otherwise {odd[:3]}", flush=True)
    return wrong + full_devices() + closed_pipes(good[0])


def full_devices():
    """/dev/full takes nothing of what is flushed; /dev/null all; a folder can't be read."""
    wrong = 0
    with open("/dev/full", "wb") as full, open("/dev/null", "wb") as null:
        for name, out, given, wanted in (("/dev/full", full, None, 3), ("/dev/null", null, None, 0), ("a folder as the input", subprocess.PIPE, "/", 3)):
            words = {"stdin": os.open(given, os.O_RDONLY)} if given else {"input": session()}
            ended = subprocess.run(memory.script_words(), stdout=out, stderr=subprocess.PIPE, timeout=LIMIT, **words)
            faults = store.faults_in(ended.stderr)
            is_right = ended.returncode == wanted and (is_sentence(faults) if wanted else faults == "")
            wrong += not is_right
            print(f"{name}: status {ended.returncode}, {faults!r}{'' if is_right else ' DIFFERS'}", flush=True)
        # The standard error is no reply: where it can't be written either, the status tells.
        ended = subprocess.run(memory.script_words(), input=session(), stdout=full, stderr=full, timeout=LIMIT)
        wrong += ended.returncode != 3
        print(f"/dev/full as the standard output and the standard error: status {ended.returncode}", flush=True)
    return wrong


def closed_pipes(good):
    """A reader that goes: after the first line, at once, and one that was never there."""
    wrong = 0
    for name, command in (("| head -1", "{} | head -1; echo status ${{PIPESTATUS[0]}} >&2"), ("| true", "{} | (exec <&-; sleep 0.3); echo status ${{PIPESTATUS[0]}} >&2"),
                          (">&-", "{} >&-; echo status $? >&2")):
        program = "{ cat " + "%s; sleep 0.5; cat %s; } | " + " ".join(memory.script_words())
        with tempfile.NamedTemporaryFile() as script:
            script.write(session())
            script.flush()
            # The script comes twice, the second time when nobody reads any more; the trap for closed pipes is the system's own.
            text = command.format("(" + program % (script.name, script.name) + ")")
            ended = subprocess.run(["bash", "-c", text], capture_output=True, timeout=LIMIT, preexec_fn=lambda: signal.signal(signal.SIGPIPE, signal.SIG_DFL))
        faults = store.faults_in(ended.stderr)
        is_right = re.fullmatch(r"error: [^\n]+\nstatus 3\n", faults) is not None and good.startswith(ended.stdout)
        wrong += not is_right
        print(f"{name}: {faults!r}{'' if is_right else ' DIFFERS'}", flush=True)
    return wrong


# Submissions that are refused.


def resident(process):
    """The greatest resident size so far, and the present one, in MB."""
    with open(f"/proc/{process.pid}/status", encoding="ascii") as file:
        told = file.read()
    return [int(re.search(rf"{name}:\s+(\d+)", told)[1]) / 1024 for name in ("VmHWM", "VmRSS")]


def fed(text, wanted):
    """Serves a script whose end doesn't come before its memory is looked at; the replies, and the memory then."""
    with subprocess.Popen(memory.script_words(), stdin=subprocess.PIPE, stdout=subprocess.PIPE) as process:
        writing = threading.Thread(target=lambda: (process.stdin.write(text), process.stdin.flush()))
        writing.start()
        told = b"".join(process.stdout.readline() for _ in range(wanted))
        writing.join()
        found = resident(process)
        process.stdin.close()
        return told, found


def shelf(_jobs):
    """Each submission is denied, has a fault, lacks its top or shows a cycle; the history keeps the bytes of what it was asked, and no library."""
    wrong = 0
    squares = library(structure("TOP", *(box(1, 20 * k, 0, 20 * k + 10, 10) for k in range(1000))))
    rows = [("denied", squares, b"TOP", b"grant submit other officer", b"DENIED permission submit chip"),
            ("with a fault at its end", squares[:-2], b"TOP", b"grant submit chip officer", b"REFUSED 1 short %d" % (len(squares) - 4)),
            ("without its top", squares, b"NONE", b"grant submit chip officer", b"REFUSED 20 notop")]
    for name, data, top, grant, reply in rows:
        sizes = []
        for times in 1, 2046, 4092:
            script = Script()
            for line in b"open root abc", b"activate officer", grant:
                script.ask(line, b"OK 0")
            script.ask(b"submit chip %s" % top, reply, payload=data, times=times)
            told, memory_then = fed(script.text, script.expected.count(b"\n"))
            wrong += told != script.expected
            sizes.append(memory_then)
        each_one = (sizes[2][1] - sizes[1][1]) * 2**20 / 2046
        print(f"4092 submissions of {len(data)} bytes, {name}: {sizes[2][1]:.0f} MB, at most {sizes[2][0]:.0f}; {each_one / len(data):.2f} bytes for each that was submitted", flush=True)
    return wrong


# Secrets.


def notation(text):
    """A library in the notation of the stored scripts, as far as `secret-narrow` has it."""
    name, _, items = text.partition(": ")
    parts = []
    for item in items.split("; "):
        kind, first, *numbers = item.split(" ")
        parts.append(box(int(first.partition("/")[0]), *map(int, numbers)) if kind == "b" else placed(first, *map(int, numbers)))
    return library(structure(name, *parts))


def secret_script(secret):
    """The stored script `secret-narrow` with another library in the secret cell's place, as its bytes."""
    with open(os.path.join(store.TOP, "crates", "gate_desk", "data", "secret-narrow.txt"), encoding="ascii") as file:
        lines = file.read().splitlines()
    text, is_first = b"", True
    for line, following in zip(lines, lines[1:] + [""]):
        if not line.startswith("> "):
            continue
        words, payload = line[2:].encode(), None
        if following.startswith("= "):
            payload, is_first = secret if is_first else notation(following[2:]), False
            words = b" ".join(words.split(b" ")[:-1]) + b" %d" % len(payload)
        elif following.startswith("| "):
            payload = following[2:].replace("\\n", "\n").encode()
        text += words + b"\n" + (payload or b"")
    return text


def some_secret(random):
    """Some boxes about the other firm's, on its layer and others."""
    boxes = [(random.choice([1, 1, 2, 7]), random.randrange(0, 60), random.randrange(0, 120)) for _ in range(random.randrange(1, 9))]
    return library(structure("TOP", *(box(layer, x, y, x + random.randrange(1, 30), y + random.randrange(1, 40)) for layer, x, y in boxes)))


def secrets(pairs):
    random, wrong, wanted = Random("secrets"), 0, None
    for _ in range(int(pairs)):
        for secret in some_secret(random), some_secret(random):
            outcome = serve(secret_script(secret))
            wanted = wanted or outcome
            wrong += outcome != wanted or outcome[1] != 0
    print(f"{int(pairs)} pairs: {len(wanted[0].splitlines())} lines of replies each, {wrong} differ", flush=True)
    return wrong


# Runs that are left.


def polygon(corners):
    """A boundary of these corners."""
    data = long(*(it for pair in [*corners, corners[0]] for it in pair))
    return record(BOUNDARY) + record(LAYER, short(1)) + record(DATATYPE, short(0)) + record(XY, data) + record(ENDEL)


def crossing():
    """A boundary of 8190 corners: 1023 teeth that stand, and as many that lie across them."""
    teeth = 1023
    side = 4 * teeth
    corners = [corner for k in range(teeth) for corner in ((4 * k, 0), (4 * k, side), (4 * k + 2, side), (4 * k + 2, 0))]
    corners += [(corners[-1][0], -4), (-4, -4)]
    corners += [corner for k in range(teeth) for corner in ((-4, 4 * k), (side, 4 * k), (side, 4 * k + 2), (-4, 4 * k + 2))]
    return library(structure("TOP", polygon(corners + [(-8, corners[-1][1]), (-8, -8), (0, -8)])))


def bars(columns, rows):
    """Bars 1 nm wide at a pitch of 2 nm: under a distance of 65535 each edge has some 32,767 others within it."""
    return library(structure("BAR", box(1, 0, 0, 1, 100)), structure("TOP", reference("BAR", columns, rows, 2, 200)))


def stacked():
    """2^20 boxes, all but 4096 of which lie on one another, and the others, which are too narrow, upon these."""
    return library(structure("LOW", box(1, 0, 0, 2000, 2000)), structure("DOT", box(2, 1, 1, 5, 5)),
                   structure("TOP", reference("LOW", 1020, 1024, 0, 0), reference("DOT", 64, 64, 30, 30)))


def reference(name, columns, rows, right, up):
    """An array at the origin."""
    data = long(0, 0, columns * right, 0, 0, rows * up)
    return record(AREF) + record(SNAME, padded(name)) + record(COLROW, short(columns, rows)) + record(XY, data) + record(ENDEL)


ONE_TILE = b"tile 1073741824\n"
LAYOUTS = {"a boundary that crosses itself": (crossing, ONE_TILE + b"width w 1/0 65535\n"),
           "the same, all spaces": (crossing, ONE_TILE + b"space s 1/0 65535\n"),
           "4096 bars at a pitch of 2 nm": (lambda: bars(4096, 1), ONE_TILE + b"space s 1/0 65535\n"),
           "16 rows of 32767 such bars": (lambda: bars(32767, 16), ONE_TILE + b"space s 1/0 65535\n"),
           "boxes on one another": (stacked, ONE_TILE + b"width w 2/0 65535\n")}
# Of the address space: what is found may be more than the machine has.
MOST_MEMORY = 5 << 30


def processor_seconds(process):
    with open(f"/proc/{process.pid}/stat", encoding="ascii") as file:
        fields = file.read().rpartition(")")[2].split()
    return (int(fields[11]) + int(fields[12])) / os.sysconf("SC_CLK_TCK")


@contextmanager
def service(connections, workers, *more):
    words = [store.MPW, "serve", "--listen", "127.0.0.1:0", "--connections", str(connections), "--workers", str(workers), "--officer", store.OFFICER,
             "--digest", store.DIGEST.hex(), *more]
    limit = lambda: resource.setrlimit(resource.RLIMIT_AS, (MOST_MEMORY, MOST_MEMORY))  # noqa: E731
    with subprocess.Popen(words, stdout=subprocess.PIPE, stderr=subprocess.PIPE, preexec_fn=limit) as process:
        try:
            yield process, int(process.stdout.readline().rpartition(b":")[2])
        finally:
            process.kill()


class Client:
    """A connection that asks line by line."""

    def __init__(self, port):
        self.end = socket.create_connection(("127.0.0.1", port), LIMIT)
        self.end.setsockopt(socket.IPPROTO_TCP, socket.TCP_NODELAY, 1)
        self.given = self.end.makefile("rb", 1 << 20)

    def reply(self):
        first = self.given.readline().rstrip(b"\n")
        return [first] + [self.given.readline().rstrip(b"\n") for _ in range(int(first.split()[1]) if first.startswith(b"OK ") else 0)]

    def ask(self, line, payload=None):
        self.end.sendall(line + b"\n" if payload is None else b"%s %d\n" % (line, len(payload)) + payload)
        return self.reply()

    def need(self, line, payload=None):
        found = self.ask(line, payload)
        if not found[0].startswith(b"OK"):
            raise SystemExit(f"{line}: {found}")
        return found

    def close(self):
        self.given.close()
        self.end.close()


def officer(port, *cells):
    """The officer, who may do all over some cells."""
    client = Client(port)
    client.need(b"open root abc")
    client.need(b"activate officer")
    for cell in cells:
        for word in (b"submit", b"read", b"place"):
            client.need(b"grant %s %s officer" % (word, cell))
    for word in (b"deck", b"run", b"waive", b"sign", b"verdict", b"audit"):
        client.need(b"grant %s desk officer" % word)
    return client


def cancel(seconds):
    """How long `cancel` waits that comes so many seconds after the run, and how long the workers then still work."""
    wrong = 0
    for name, (make, deck) in LAYOUTS.items():
        data = make()
        with service(2, 2) as (process, port):
            client = officer(port, b"chip")
            submitted = client.ask(b"submit chip TOP", data)
            if submitted[0] != b"OK 1":
                raise SystemExit(f"{name}: {submitted}")
            client.need(b"place chip a R0 0 0")
            client.need(b"deck", deck)
            client.need(b"run")
            time.sleep(seconds)
            status = client.need(b"status")[1].decode()
            begun_at = time.monotonic()
            told = client.ask(b"cancel")
            waited = time.monotonic() - begun_at
            idle = client.need(b"status")[1]
            before = processor_seconds(process)
            worked = until_idle(process)
            peak, then = resident(process)
            is_right = told == [b"OK 0"] and idle == b"idle" or status.startswith("finished")
            wrong += not is_right
            print(f"{name}, {len(data)} bytes: {status} after {seconds} s; cancel {told[0].decode()} in {1000 * waited:.1f} ms; "
                  f"the workers went on for {worked:.1f} s, {processor_seconds(process) - before:.1f} of a processor; at most {peak:.0f} MB, {then:.0f} then"
                  f"{'' if is_right else ' DIFFERS'}", flush=True)
            client.close()
    return wrong


def until_idle(process, limit=300):
    """How long a process works on, until it does nothing for half a second."""
    begun_at = time.monotonic()
    last, since = processor_seconds(process), begun_at
    while time.monotonic() - since < 0.5 and time.monotonic() - begun_at < limit:
        time.sleep(0.05)
        now = processor_seconds(process)
        if now > last + 0.011:
            last, since = now, time.monotonic()
    return since - begun_at


# Clients without a session.


def at_once(count, port, line, payload):
    """So many connections that send a line with its payload together; the first lines of their replies."""
    clients = [Client(port) for _ in range(count)]
    gate, told = threading.Barrier(count), []

    def ask(client):
        gate.wait()
        told.append(client.ask(line, payload)[0])

    asking = [threading.Thread(target=ask, args=(client,)) for client in clients]
    for thread in asking:
        thread.start()
    for thread in asking:
        thread.join()
    for client in clients:
        client.close()
    return told


def flood():
    import cost
    wrong = 0
    for name, line, payload in (("a chain of 200,000 structures", b"submit c TOP", cost.chain(200000)), ("2^20 structures", b"submit c TOP", cost.all_structures()[0]),
                                ("a deck of line feeds", b"deck", b"tile 256\n" + b"\n" * (2**24 - 9)), ("bytes of no library", b"submit c TOP", bytes(2**24))):
        with service(64, 1, "--ongoing") as (process, port):
            before = resident(process)[1]
            told = at_once(8, port, line, payload)
            wrong += told != [b"DENIED session"] * 8
            peak, then = resident(process)
            print(f"8 connections without a session, each with {len(payload)} bytes, {name}: at most {(peak - before) / 8:.0f} MB each, {(then - before) / 8:.0f} kept each", flush=True)
    return wrong + until_full(1 << 30)


def until_full(size):
    """One of them goes on until memory is wanting; what an officer is told then."""
    with service(64, 1, "--ongoing") as (process, port):
        resource.prlimit(process.pid, resource.RLIMIT_AS, (size, size))
        desk = officer(port, b"chip")
        client, count, payload = Client(port), 0, bytes(2**24)
        while client.ask(b"submit c TOP", payload) == [b"DENIED session"]:
            count += 1
        told = Counter()
        for line in (b"whoami", b"addrole r", b"cells", b"status", b"markers"):
            for _ in range(50):
                told[desk.ask(line)[0].decode()] += 1
        is_alive = process.poll() is None
        print(f"with {size >> 20} MB of address space: {count} denied submissions of 2^24 bytes, and then 17 memory; an officer's 250 lines are told "
              + ", ".join(f"{number} times {reply}" for reply, number in told.most_common()) + ("" if is_alive else "; it ENDED"), flush=True)
        return not is_alive


def main(words):
    parser = argparse.ArgumentParser(description=__doc__, formatter_class=argparse.RawDescriptionHelpFormatter)
    parser.add_argument("kind", choices=["end", "devices", "shelf", "secrets", "flood", "cancel"])
    parser.add_argument("number", nargs="?", type=float)
    parser.add_argument("--jobs", type=int, default=1, metavar="J")
    given = parser.parse_intermixed_args(words)
    if given.kind in ("cancel", "secrets"):
        return 1 if {"cancel": cancel, "secrets": secrets}[given.kind](given.number or {"cancel": 2.0, "secrets": 100}[given.kind]) else 0
    return 1 if {"end": end, "devices": devices, "shelf": shelf, "flood": lambda _: flood()}[given.kind](given.jobs) else 0


if __name__ == "__main__":
    sys.exit(main(sys.argv[1:]))
