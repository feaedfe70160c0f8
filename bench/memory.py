#!/usr/bin/env python3
"""Refuses memory to the built program, and compares what it does with the model of model/.

  memory.py each [SESSION ..] [--jobs J] [--step S]     each allocation of a session in turn, and each with all that come after it
  memory.py limit [SESSION ..] [--jobs J]               a process with ever less address space
  memory.py store [SESSION ..] [--jobs J] [--step S]    each allocation of a session over a store, which is then opened again
  memory.py serve [SESSION ..] [--jobs J] [--step S]    each allocation of a service whose one connection is served a session
  memory.py check [--jobs J] [--step S]                 each allocation of `mpw check` of examples/, alone and with all that come after it
  memory.py stored [--jobs J] [--step S]                each allocation of golden tests: answers to a run that come late, twice and by others (gate_desk/desk), and a store in
                                                        memory that is reopened (gate_store/store); such a program ends where memory is wanting
  memory.py refused [--jobs J] [--step S]               each allocation of the golden test gate_desk/refused, whose desk is asked once more then; the gate does it, by
                                                        clients/python/tests/test_hostile.py

Sessions: first, firms, sight, duties, late. After each come lines by which every user looks at all that there is. A line that is answered `17 memory` is left out
of what the model's desk is asked, so all other replies have to be those of a desk that never had it. A run for whose work memory ran out
is one that cuts or checks; the session `late` leaves each run, and runs again.

Allocations are refused by refuse.c, which stands before the C library's malloc; S tries each Sth alone. The programs are MPW_PROGRAM and MPW_FIRM, else those that the gate
built. The exit status is 1 where something isn't as it has to be.
"""
import argparse
import multiprocessing
import os
import re
import resource
import socket
import subprocess
import sys
import tempfile
import time
from collections import Counter
from contextlib import contextmanager, suppress

import store
from store import Difference, model, request_of

HERE, TOP = store.HERE, store.TOP
sys.path += [os.path.join(TOP, "examples"), os.path.join(TOP, "scripts")]

import golden  # noqa: E402
import replies  # noqa: E402
import wafer as model_wafer  # noqa: E402
from make import box, library, placed, structure  # noqa: E402
from replies import Refused, test  # noqa: E402

replies.CODES["running"] = 37
MEMORY, STORE, CLOSED = "REFUSED 17 memory", "REFUSED 60 store", "REFUSED 61 closed"
LIMIT = 60


# Sessions.


def example(name):
    with open(os.path.join(TOP, "examples", f"{name}.txt"), "rb") as file:
        return file.read()


def submitted(cell, top, data):
    return b"submit %s %s %d\n" % (cell, top, len(data)) + data


def firms():
    """Three firms, of which each submits a cell; the third shows those of both others, and may see those of one."""
    lines = [b"open root abc", b"activate officer"]
    for firm in (b"ann", b"bob", b"cid"):
        lines += [b"adduser %s abc" % firm, b"addrole r%s" % firm, b"assign %s r%s" % (firm, firm), b"grant submit c%s r%s" % (firm, firm),
                  b"grant read c%s r%s" % (firm, firm)]
    lines += [b"grant use cann rcid", b"grant use cbob rcid", b"grant read cann rcid", b"close"]
    text = b"\n".join(lines) + b"\n"
    libraries = {
        b"ann": library(structure("TOP", box(1, 0, 0, 10, 10), placed("PART", 20, 0)), structure("PART", box(2, 0, 0, 4, 4))),
        b"bob": library(structure("TOP", box(1, 0, 0, 30, 10))),
        b"cid": library(structure("TOP", box(3, 0, 0, 5, 5), placed("cann", 100, 0, "R90"), placed("cbob", 0, 100, "M0"))),
    }
    for firm, data in libraries.items():
        text += b"open %s abc\nactivate r%s\n" % (firm, firm) + submitted(b"c" + firm, b"TOP", data) + b"shapes c%s\nclose\n" % firm
    return text + b"open cid abc\nactivate rcid\n" + submitted(b"ccid", b"TOP", libraries[b"cid"]) + b"shapes ccid\nshapes cbob\ncells\nclose\n"


def late():
    """Runs over several tiles; where memory is wanting for one, it is left, and another one begins."""
    lines = [b"open root abc", b"activate officer"]
    lines += [b"grant %s chip officer" % word for word in (b"submit", b"read", b"place")]
    lines += [b"grant %s desk officer" % word for word in (b"deck", b"run", b"waive", b"verdict")]
    text = b"\n".join(lines) + b"\n"
    text += submitted(b"chip", b"TOP", library(structure("TOP", box(1, 0, 0, 10, 600), box(1, 20, 0, 30, 600))))
    deck = b"tile 256\nspace sp 1/0 11\nwidth w 1/0 11\n"
    text += b"place chip a R0 0 0\nplace chip b R90 0 -100\ndeck %d\n" % len(deck) + deck
    turn = b"run\nstatus\nstatus\nmarkers\nverdict\n"
    key = b"waive sp:V:0:10:20:0:600\n"
    return text + turn + key + b"run\nstatus\ncancel\nstatus\n" + turn + key + b"waivers\nverdict\n"


SESSIONS = {
    "first": lambda: example("first-session"), "firms": firms, "sight": lambda: example("sign-off"),
    "duties": lambda: example("separation-of-duty"), "late": late,
}


def whole(name):
    """A session, and then a look of each user at all that there is."""
    text = SESSIONS[name]()
    desk = model.serve(text, store.OFFICER, store.DIGEST).desk
    looks = b"close\n" + store.looks(desk)
    return text + looks + b"open root abc\nactivate officer\ngrant audit desk officer\ntrail\n"


# The model's desk, at which a run may be stuck.


class Wafer(model_wafer.Wafer):
    """A wafer whose run may be one for whose work memory was wanting."""

    def __init__(self, policy, shelf):
        super().__init__(policy, shelf)
        self.begun, self.stuck = 0, None

    def begin_run(self):
        self.policy.need("run", "desk")
        test(self.stuck is None, "running")
        super().begin_run()
        self.begun += 1
        self.run.number = self.begun
        return [f"run {self.begun}"]

    def cancel(self):
        self.policy.need("run", "desk")
        test(self.stuck is not None, "norun")
        self.stuck = None

    def status(self):
        self.policy.need_session()
        return [self.stuck] if self.stuck else super().status()


class Desk(model.Desk):
    """The model's desk with such a wafer."""

    def __init__(self):
        super().__init__(store.OFFICER, store.DIGEST)
        self.wafer.__class__ = Wafer
        self.wafer.begun, self.wafer.stuck = 0, None
        self.answers.update(self.answers_of_layouts())

    def stick(self, line):
        """The run that was begun last stays as a reply to `status` tells."""
        found = re.fullmatch(r"cutting (\d+)|checking (\d+) (\d+) (\d+)", line)
        run = self.wafer.run
        if not found or int(found[1] or found[2]) != run.number:
            raise Difference(f"status {line} of run {run.number}")
        tiles = model_wafer.tiles_over(run.roots, run.deck.tile)
        if found[2] and not (int(found[3]) < int(found[4]) == tiles):
            raise Difference(f"status {line} of {tiles} tiles")
        self.wafer.run, self.wafer.stuck = None, line


def replies_in(text):
    """The replies of a text, each a list of lines; the last may be cut off where the program was ended, which isn't expected here."""
    lines = iter(text.decode("latin1").splitlines())
    for first in lines:
        count = int(first.split(" ")[1]) if first.startswith("OK ") else 0
        found = [first]
        for _ in range(count):
            line = next(lines, None)
            if line is None:
                raise Difference(f"a reply that is cut off: {found}")
            found.append(line)
        yield found


def asked_of(text):
    """The lines of a script: the request, or the refusal of its form, and the payload."""
    given = model.Input(text)
    while True:
        line = given.line()
        if line is None:
            return
        request = request_of(line)
        yield line, request, None if request.length is None else given.payload(request.length)


def run_state(asked, told, place):
    """What is reported of the run that the reply of that place began: the first line of `status` after it, before another run or its end; none if it is finished
    or nobody tells."""
    for (line, request, _), reply in zip(asked[place + 1:], told[place + 1:]):
        if request.verb in ("run", "cancel") and reply[0] != MEMORY:
            return reply[0] if reply[0] == "REFUSED 37 running" else None
        if request.verb == "status" and reply[0] == "OK 1":
            return reply[1] if not reply[1].startswith("finished") else None
    return None


def judge(asked, told, may_close=False):
    """That each reply is the model's, but where memory was wanting; the desk then, how many lines were told so, and how it ended: at the last line, at
    one that there was no room to read, or closed."""
    desk, refused, accepted = Desk(), 0, []
    for place, ((line, request, payload), reply) in enumerate(zip(asked, told)):
        if reply == [MEMORY]:
            refused += 1
            continue
        if may_close and reply == [STORE]:
            # If there is no memory to read a line, the connection ends.
            rest = told[place + 1:-1] if told[-1] == [MEMORY] else told[place + 1:]
            if any(later != [CLOSED] for later in rest):
                raise Difference(f"after {STORE}: {told[place + 1:][:3]}")
            return desk, refused, "closed", accepted, line
        wanted = desk.ask(request, payload)
        if reply != wanted:
            raise Difference(f"{line[:60]}: {reply[:3]} in place of {wanted[:3]}")
        if reply[0].startswith("OK") and request.verb not in store.LISTINGS:
            accepted.append(line)
        if request.verb == "run" and reply[0] == "OK 1":
            state = run_state(asked, told, place)
            if state:
                desk.stick(state)
    if len(told) > len(asked):
        raise Difference(f"{len(told)} replies to {len(asked)} lines")
    if len(told) < len(asked):
        if told and told[-1] != [MEMORY]:
            raise Difference(f"the last reply is {told[-1]}")
        return desk, refused, "no room to read", accepted, None
    return desk, refused, "served", accepted, None


# One process with some memory.


@contextmanager
def library_of_refusals():
    with tempfile.TemporaryDirectory() as folder:
        path = os.path.join(folder, "refuse.so")
        subprocess.run(["cc", "-O2", "-shared", "-fPIC", "-o", path, os.path.join(HERE, "refuse.c"), "-ldl"], check=True)
        yield path


def environment(shim, first, count, report=None):
    found = {**os.environ, "LD_PRELOAD": shim, "REFUSE_FROM": str(first), "REFUSE_COUNT": str(count)}
    return {**found, "REFUSE_REPORT": report} if report else found


def script_words(path=None):
    words = [store.MPW, "script", "--officer", store.OFFICER, "--digest", store.DIGEST.hex()]
    return words + ["--store", path] if path else words


def check_end(asked, text, status, faults, ends=(0, 5)):
    """That a program ended well, and what it answered; what is to be counted of it."""
    if status not in ends or (status == 0) != (faults == ""):
        raise Difference(f"status {status}: {faults[:200]!r}")
    if status == 5 and not re.fullmatch(r"error: .+\n", faults):
        raise Difference(f"told {faults[:200]!r}")
    _, refused, how, _, _ = judge(asked, list(replies_in(text)))
    if status == 5:
        return "ended with 5"
    return how if how != "served" else "served, a line told 17" if refused else "served as ever"


def count_allocations(shim, words, text, check=True):
    with tempfile.NamedTemporaryFile() as report:
        subprocess.run(words, input=text, stdout=subprocess.DEVNULL, stderr=subprocess.DEVNULL, env=environment(shim, 0, 1, report.name), check=check)
        return int(report.read().split()[0])


def try_script(task):
    """A session from whose Nth allocation on so many are refused."""
    shim, name, first, count = task
    text = whole(name)
    ended = subprocess.run(script_words(), input=text, capture_output=True, env=environment(shim, first, count), timeout=LIMIT)
    try:
        return check_end(list(asked_of(text)), ended.stdout, ended.returncode, store.faults_in(ended.stderr))
    except Difference as difference:
        return f"DIFFERS: {name}, {count} from allocation {first} on: {difference}"


def tell(head, results):
    tally, wrong = Counter(), []
    for result in results:
        if result.startswith("DIFFERS"):
            wrong.append(result)
            print(result, flush=True)
        else:
            tally[result] += 1
    print(f"{head}: {sum(tally.values())} as they have to be, {len(wrong)} not; " + ", ".join(f"{number} {word}" for word, number in tally.most_common()), flush=True)
    return len(wrong)


def each(pool, shim, names, step):
    wrong = 0
    for name in names:
        total = count_allocations(shim, script_words(), whole(name))
        for count, what in (1, "refused alone"), (10**9, "refused with all that follow"):
            tasks = [(shim, name, first, count) for first in range(1, total + 1, step)]
            wrong += tell(f"{name}, {total} allocations, {len(tasks)} {what}", pool.imap_unordered(try_script, tasks, 8))
    return wrong


# A limit of the address space.


def try_limit(task):
    name, size = task
    text = whole(name) if name != "large" else large()
    ended = subprocess.run(script_words(), input=text, capture_output=True, timeout=LIMIT,
                           preexec_fn=lambda: resource.setrlimit(resource.RLIMIT_AS, (size, size)))
    faults = store.faults_in(ended.stderr)
    if ended.returncode == 127 and "loading shared libraries" in faults or ended.returncode == -11 and not ended.stdout and size < 8 << 20:
        return "not loaded"
    try:
        return check_end(list(asked_of(text)), ended.stdout, ended.returncode, faults)
    except Difference as difference:
        return f"DIFFERS: {name}, {size} bytes: {difference}"


def large():
    """Libraries of some hundred KB, of which the desk keeps all, and runs over them."""
    squares = library(structure("TOP", *(box(1, 20 * k, 0, 20 * k + 10, 10) for k in range(3000))))
    text = late()
    for _ in range(6):
        text += submitted(b"chip", b"TOP", squares)
    return text + b"place chip c R0 0 5000\nrun\nstatus\ncells\nverdict\ncancel\nstatus\nrun\nstatus\n"


def limit(pool, shim, names, step):
    wrong = 0
    for name in [*names, "large"]:
        sizes = [size << 16 for size in range(16, 16 * 64, 2 * step)] + [size << 20 for size in range(64, 400, 4 * step)]
        wrong += tell(f"{name}, {len(sizes)} limits from {sizes[0] >> 20} to {sizes[-1] >> 20} MB", pool.imap_unordered(try_limit, [(name, size) for size in sizes], 4))
    return wrong


# A store.


def try_store(task):
    """A session over a store, and then a look at what is there, with all memory."""
    shim, name, first, count = task
    text = whole(name)
    asked = list(asked_of(text))
    with tempfile.TemporaryDirectory(dir="/dev/shm" if os.path.isdir("/dev/shm") else None) as folder:
        path = os.path.join(folder, "desk.db")
        ended = subprocess.run(script_words(path), input=text, capture_output=True, env=environment(shim, first, count), timeout=LIMIT)
        faults = store.faults_in(ended.stderr)
        try:
            if ended.returncode not in (0, 3, 5) or (ended.returncode == 0) != (faults == ""):
                raise Difference(f"status {ended.returncode}: {faults[:200]!r}")
            _, refused, how, accepted, unkept = judge(asked, list(replies_in(ended.stdout)), may_close=True)
            if how == "closed" and ended.returncode == 0:
                raise Difference("a closed desk ended with 0")
            tokens = store.tokens_in(text)
            rows = store.rows_of(path) if os.path.exists(path) else []
            check_rows(rows, accepted, unkept, tokens)
            store.check_looks(path, rows, tokens)
        except (Difference, AssertionError) as difference:
            return f"DIFFERS: {name}, {count} from allocation {first} on: {difference}"
    if ended.returncode == 5 and how == "served":
        return "served, ended with 5"
    return f"{how}, a line told 17" if how == "served" and refused else how if ended.stdout else f"nothing served, ended with {ended.returncode}"


def check_rows(rows, accepted, unkept, tokens):
    """That the requests among the rows are those that were accepted, and at most the one that could not be kept."""
    kept = Desk()
    kept.tokens = tokens
    found = [store.Kept.asked(kept, row.line) for row in rows if row.kind == store.REQUEST]
    if found != accepted and (unkept is None or found != accepted + [unkept]):
        raise Difference(f"{len(found)} rows of requests, {len(accepted)} accepted; {found[-1:]} {accepted[-1:]}")


def over_stores(pool, shim, names, step):
    wrong = 0
    for name in names:
        with tempfile.TemporaryDirectory() as folder:
            total = count_allocations(shim, script_words(os.path.join(folder, "desk.db")), whole(name))
        for count, what in (1, "refused alone"), (10**9, "refused with all that follow"):
            tasks = [(shim, name, first, count) for first in range(1, total + 1, step)]
            wrong += tell(f"{name} over a store, {total} allocations, {len(tasks)} {what}", pool.imap_unordered(try_store, tasks, 4))
    return wrong


# A service.


def service_words():
    return [store.MPW, "serve", "--listen", "127.0.0.1:0", "--connections", "1", "--workers", "1", "--officer", store.OFFICER, "--digest", store.DIGEST.hex()]


def converse(port, asked):
    """Asks the lines one by one, after each `run` until it is finished; the lines with their replies, and whether the service ended the connection."""
    done, told = [], []
    with socket.create_connection(("127.0.0.1", port), LIMIT) as end, end.makefile("rb") as given:
        def ask(line, request, payload):
            end.sendall(line + b"\n" + (payload or b""))
            first = given.readline().decode("latin1").rstrip("\n")
            if not first:
                return None
            lines = [first] + [given.readline().decode("latin1").rstrip("\n") for _ in range(int(first.split(" ")[1]) if first.startswith("OK ") else 0)]
            done.append((line, request, payload))
            told.append(lines)
            return lines

        for line, request, payload in asked:
            reply = ask(line, request, payload)
            if reply is None:
                return done, told, True
            until = time.monotonic() + 20
            while request.verb == "run" and reply[0] == "OK 1":
                status = ask(b"status", request_of(b"status"), None)
                if status is None:
                    return done, told, True
                if status[0] == MEMORY or not status[1].startswith("finished"):
                    # A poll that came before the run was finished says nothing of the desk but that; the model's runs are finished at once.
                    done.pop()
                    told.pop()
                    if time.monotonic() > until:
                        raise Difference(f"a run that isn't finished: {status}")
                    time.sleep(0.002)
                    continue
                break
    return done, told, False


def try_service(task):
    shim, name, first, count = task
    asked = [it for it in asked_of(whole(name)) if it[1].verb != "trail"]
    process = subprocess.Popen(service_words(), stdout=subprocess.PIPE, stderr=subprocess.PIPE, env=environment(shim, first, count))
    try:
        head = process.stdout.readline()
        told = []
        if head:
            port = int(head.rpartition(b":")[2])
            with suppress(ConnectionError):
                done, told, is_ended = converse(port, asked)
                judge(done, told)
                if is_ended and len(done) < len(asked) and told and told[-1] != [MEMORY]:
                    raise Difference(f"ended after {told[-1]}")
        printed, faults = process.communicate(timeout=LIMIT)
        faults = store.faults_in(faults)
        if process.returncode not in (0, 3, 5) or (process.returncode == 0) != (faults == ""):
            raise Difference(f"status {process.returncode}: {faults[:200]!r}, {printed[:100]!r}")
    except (Difference, subprocess.TimeoutExpired, OSError) as difference:
        return f"DIFFERS: {name} by a service, {count} from allocation {first} on: {difference!r}"
    finally:
        process.kill()
        process.wait()
    if process.returncode:
        return f"ended with {process.returncode}"
    return "served, a line told 17" if [MEMORY] in told else "served as ever" if len(told) >= len(asked) else "the connection ended"


def over_services(pool, shim, names, step):
    wrong = 0
    for name in names:
        with tempfile.NamedTemporaryFile() as report:
            with subprocess.Popen(service_words(), stdout=subprocess.PIPE, env=environment(shim, 0, 1, report.name)) as process:
                converse(int(process.stdout.readline().rpartition(b":")[2]), list(asked_of(whole(name))))
                process.communicate(timeout=LIMIT)
            total = int(report.read().split()[0])
        tasks = [(shim, name, first, 1) for first in range(1, total + 1, step)]
        wrong += tell(f"{name} by a service, about {total} allocations, {len(tasks)} refused alone", pool.imap_unordered(try_service, tasks, 4))
    return wrong


# A check by itself.

FIRM = os.environ.get("MPW_FIRM", os.path.join(TOP, "crates", "mpw_firm", "out", "mpw_firm"))


def check_words(name):
    return [FIRM, "check", "--deck", os.path.join(TOP, "examples", f"{name}.deck"), os.path.join(TOP, "examples", f"{name}.gds")]


def try_check(task):
    """A check that wants memory tells so and ends with 5, and what it printed is a front of the listing; or it needs what was refused for nothing."""
    shim, name, first, count, good, status = task
    ended = subprocess.run(check_words(name), capture_output=True, env=environment(shim, first, count), timeout=LIMIT)
    if (ended.returncode, ended.stdout) == (status, good):
        return "as ever"
    if ended.returncode == 5 and good.startswith(ended.stdout) and ended.stderr.splitlines()[-1:] and ended.stderr.splitlines()[-1].startswith(b"error: out of memory: "):
        return "ended with 5"
    return f"DIFFERS: check of {name}, {count} from allocation {first} on: status {ended.returncode}, {len(ended.stdout)} bytes, {ended.stderr[-100:]!r}"


def checks(pool, shim, _names, step):
    wrong = 0
    for name in "orientations", "pad-ring", "via-farm":
        ended = subprocess.run(check_words(name), capture_output=True, check=False)
        total = count_allocations(shim, check_words(name), b"", False)
        for count, what in (1, "refused alone"), (10**9, "refused with all that follow"):
            tasks = [(shim, name, first, count, ended.stdout, ended.returncode) for first in range(1, total + 1, step)]
            wrong += tell(f"check of {name}, {total} allocations, {len(tasks)} {what}", pool.imap_unordered(try_check, tasks, 8))
    return wrong


# Golden tests.

CRATES = os.environ.get("MPW_CRATES", os.path.join(TOP, "crates"))
# How many lines of a table are served, and the program that serves it.
STORED = {"desk": (132, "gate_desk"), "store": (14, "gate_store")}


def stored_run(name, shim=None, first=0, count=1, report=None):
    lines, crate = STORED[name]
    table = golden.table(crate, "stdin", name).encode().splitlines(keepends=True)
    text = b"".join([f"== {name}\n".encode(), *table[:lines]])
    return subprocess.run([os.path.join(CRATES, crate, "out", crate)], input=text, capture_output=True, timeout=LIMIT, cwd=os.path.join(TOP, "crates", crate, "data"),
                          env=environment(shim, first, count, report) if shim else None)


def without_end(wanted, place):
    """The lines of a listing of ten rows, the last of which is the end of a connection, at that place, as they are where that isn't stored yet."""
    if wanted[place : place + 2] != [b"10,1,gone,", b"10 rows"]:
        return None
    return [*wanted[:place], b"9 rows", *wanted[place + 2 :]]


def try_stored(task):
    """What it printed is a front of what it has to print, and a sentence says why it ended; or it printed all; or it told that a script was answered otherwise."""
    shim, name, first, count, good = task
    ended = stored_run(name, shim, first, count)
    if ended.returncode == 0 and ended.stdout == good:
        return "as ever"
    lines, wanted = ended.stdout.splitlines(), good.splitlines()
    same = next((place for place, pair in enumerate(zip(lines, wanted)) if pair[0] != pair[1]), min(len(lines), len(wanted)))
    if ended.returncode == 1 and same == len(lines) and ended.stderr.startswith(b"Error: "):
        return "a front, and an error"
    if ended.returncode == 0 and lines == without_end(wanted, same):
        return "as ever, but that the end of a connection was stored when its store was opened again"
    if ended.returncode in (0, 1) and re.search(rb"ANOTHER answer|[Nn]ot reopened|memory", lines[same]):
        return "told so, " + lines[same].decode("latin1").strip()[:60]
    return f"DIFFERS: {name}, {count} from allocation {first} on: status {ended.returncode}, line {same}: {lines[same:same + 1]} {wanted[same:same + 1]} {ended.stderr[-100:]!r}"


def stored(pool, shim, _names, step):
    wrong = 0
    for name in STORED:
        good = stored_run(name).stdout
        with tempfile.NamedTemporaryFile() as report:
            stored_run(name, shim, 0, 1, report.name)
            total = int(report.read().split()[0])
        for count, what in (1, "refused alone"), (10**9, "refused with all that follow"):
            tasks = [(shim, name, first, count, good) for first in range(1, total + 1, step)]
            wrong += tell(f"{name}, {total} allocations, {len(tasks)} {what}", pool.imap_unordered(try_stored, tasks, 8))
    return wrong


# A golden test whose desk is asked once more if memory is refused.


def parts_of(kind):
    """What the table `refused` has from each new desk to the next."""
    parts = []
    for line in golden.table("gate_desk", kind, "refused").splitlines(keepends=True):
        if line.startswith(("begin", "new ")):
            parts.append("== refused\n")
        if parts and not line.startswith("#"):
            parts[-1] += line
    return [part.encode() for part in parts]


def refused_runs():
    """What the program is given of each part, and what it has to print."""
    return list(zip(parts_of("stdin"), parts_of("stdout")))


def refused_run(shim, text, first, report=None):
    return subprocess.run([os.path.join(CRATES, "gate_desk", "out", "gate_desk")], input=text, capture_output=True, timeout=LIMIT,
                          cwd=os.path.join(TOP, "crates", "gate_desk", "data"), env=environment(shim, first, 1, report))


def allocations_of(shim, text):
    with tempfile.NamedTemporaryFile() as report:
        refused_run(shim, text, 0, report.name)
        return int(report.read().split()[0])


def try_refused(task):
    """It printed all that it has to print; or there was no memory to read the table, and so no desk."""
    shim, text, wanted, first = task
    ended = refused_run(shim, text, first)
    if ended.returncode == 0 and ended.stdout == wanted:
        return "as ever"
    if ended.returncode == 1 and ended.stdout in (b"", b"== refused\n") and ended.stderr.startswith(b"Error: "):
        return "no table, and an error"
    lines, good = ended.stdout.splitlines(), wanted.splitlines()
    same = next((place for place, pair in enumerate(zip(lines, good)) if pair[0] != pair[1]), min(len(lines), len(good)))
    return f"DIFFERS: allocation {first}: status {ended.returncode}, line {same}: {lines[same:same + 1]} {good[same:same + 1]} {ended.stderr[-100:]!r}"


def refused(pool, shim, _names, step):
    wrong = 0
    for number, (text, wanted) in enumerate(refused_runs(), 1):
        total = allocations_of(shim, text)
        tasks = [(shim, text, wanted, first) for first in range(1, total + 1, step)]
        wrong += tell(f"part {number} of gate_desk/refused, {total} allocations, {len(tasks)} refused alone", pool.imap_unordered(try_refused, tasks, 8))
    return wrong


def main(words):
    kinds = {"check": checks, "stored": stored, "refused": refused, "each": each, "limit": limit, "store": over_stores, "serve": over_services}
    parser = argparse.ArgumentParser(description=__doc__, formatter_class=argparse.RawDescriptionHelpFormatter)
    parser.add_argument("kind", choices=kinds)
    parser.add_argument("sessions", nargs="*", choices=[*SESSIONS, []], metavar="SESSION")
    parser.add_argument("--jobs", type=int, default=1, metavar="J")
    parser.add_argument("--step", type=int, default=1, metavar="S")
    given = parser.parse_intermixed_args(words)
    with library_of_refusals() as shim, multiprocessing.Pool(given.jobs) as pool:
        return 1 if kinds[given.kind](pool, shim, given.sessions or list(SESSIONS), given.step) else 0


if __name__ == "__main__":
    sys.exit(main(sys.argv[1:]))
