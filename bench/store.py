#!/usr/bin/env python3
"""Tries `mpw script --store FILE` for real: kills, full and refused files, files that are cut off or have a wrong byte, and times.

  store.py killed [TIMES] [FIRST]   random scripts, each killed at a random moment; the reopened desk is compared with the model's
  store.py full                     a small file system that has no room left
  store.py refused                  files that can't be opened, with what is told
  store.py cut [PLACES]             a store that is cut off at so many places, and one with a wrong byte at as many
  store.py times                    appends a second beside sqlite3, rows a second at reopening, and memory of a large store

The programs are MPW_PROGRAM and MPW_AUDITOR, else those that the gate built. The exit status is 1 where something isn't as it has to be.
"""
import hashlib
import os
import random
import re
import shutil
import sqlite3
import struct
import subprocess
import sys
import tempfile
import threading
import time
from collections import Counter
from contextlib import closing, suppress
from typing import NamedTuple

HERE = os.path.dirname(os.path.abspath(__file__))
TOP = os.path.dirname(HERE)
sys.path.insert(0, os.path.join(TOP, "model"))

import desk as model  # noqa: E402
import scripts  # noqa: E402
from forms import request_of  # noqa: E402
from replies import Refused  # noqa: E402


def program(variable, crate):
    """A program, as the variable names it or as the gate built it."""
    return os.environ.get(variable, os.path.join(TOP, "crates", crate, "out", crate))


MPW, AUDITOR = program("MPW_PROGRAM", "mpw_main"), program("MPW_AUDITOR", "mpw_auditor")
OFFICER, TOKEN = "root", "abc"
DIGEST = hashlib.sha256(TOKEN.encode()).digest()
REQUEST, GONE, FINISHED = 1, 2, 3
LISTINGS = {"whoami", "cells", "shapes", "status", "markers", "waivers", "verdict", "trail"}
WITH_TOKENS = {b"open", b"adduser"}
GROUPS = ("policy", "sets", "layout", "run", "sign", "mix", "seams")


class Row(NamedTuple):
    """A row of a store."""

    connection: int
    kind: int
    line: bytes
    payload: bytes | None


def command(store):
    """The words that serve a script over a store."""
    return [MPW, "script", "--officer", OFFICER, "--digest", DIGEST.hex(), "--store", store]


def faults_in(printed):
    """What a standard error says of faults: all but the lines `mpw: ..`, which say what a store is, as `mpw: desk.db is new`."""
    lines = printed.decode("latin1").splitlines(keepends=True)
    return "".join(line for line in lines if not line.startswith("mpw: "))


def serve(store, text, **more):
    """What a script over a store is answered, with its exit status and what was told of faults."""
    ended = subprocess.run(command(store), input=text, capture_output=True, **more)
    return ended.stdout, ended.returncode, faults_in(ended.stderr)


def rows_of(store):
    """The rows of a store, as the database's own library reads a copy of it and of its log; none where the file was being made when the program was
    killed."""
    with tempfile.TemporaryDirectory() as folder:
        with closing(sqlite3.connect(copied(store, folder))) as connection:
            try:
                if not connection.execute("select count(*) from sqlite_schema").fetchone()[0]:
                    return []
            except sqlite3.DatabaseError:
                return []
            found = connection.execute("select k, conn, kind, cast(line as blob), payload from changes order by k").fetchall()
    assert [row[0] for row in found] == list(range(1, len(found) + 1)), "places"
    return [Row(*row[1:]) for row in found]


def copied(store, folder):
    """A copy of a store and its log in a folder."""
    for end in ("", "-wal"):
        with suppress(FileNotFoundError):
            shutil.copyfile(store + end, os.path.join(folder, "copy.db" + end))
    return os.path.join(folder, "copy.db")


class Kept:
    """The model's desk over a store: what its rows lead to, and which rows come of what it is asked."""

    def __init__(self, rows, tokens):
        self.desk = model.Desk(OFFICER, DIGEST)
        self.tokens = tokens
        self.sessions = {}
        self.runs = self.finished = 0
        for row in rows:
            self.take(row)
        self.rows = list(rows)

    def take(self, row):
        """Takes a row, which has to be a change of the desk."""
        policy = self.desk.policy
        if row.kind == REQUEST:
            policy.session = self.sessions.get(row.connection)
            reply = self.desk.ask(request_of(self.asked(row.line)), row.payload if row.payload is not None else None)
            assert reply[0].startswith("OK"), (row.line, reply)
            self.sessions[row.connection] = policy.session
            self.runs += row.line == b"run"
        elif row.kind == GONE:
            assert self.sessions.pop(row.connection, None) is not None, row
        else:
            assert row.line == b"%d" % self.runs and row.connection == 0, row
            self.finished = self.runs

    def asked(self, line):
        """A stored line as it was asked, with its token."""
        words = line.split(b" ")
        if words[0] in WITH_TOKENS:
            words[2] = self.tokens[words[2].decode()]
        return b" ".join(words)

    def reopen(self):
        """The ends of the sessions, and the number of the next connection."""
        for connection in sorted(number for number, session in self.sessions.items() if session is not None):
            self.rows.append(Row(connection, GONE, b"", None))
        self.sessions.clear()
        self.desk.policy.session = None
        return max((row.connection for row in self.rows), default=0) + 1

    def answers(self, text, connection):
        """For each line of a script the reply, and the rows that it leaves; a last one for the end of the connection."""
        given, answered = model.Input(text), []
        policy = self.desk.policy
        for _ in range(model.MOST_LINES):
            try:
                line = given.line()
                if line is None:
                    break
                request = request_of(line)
                payload = None if request.length is None else given.payload(request.length)
            except Refused as answer:
                answered.append(([answer.first_line], []))
                if answer.word != "form":
                    break
                continue
            reply = self.desk.ask(request, payload)
            answered.append((reply, self.rows_left(connection, line, request, payload, reply)))
        ends = [] if policy.session is None else [Row(connection, GONE, b"", None)]
        return answered + [([], ends)]

    def rows_left(self, connection, line, request, payload, reply):
        """The rows that a request leaves."""
        if not reply[0].startswith("OK") or request.verb in LISTINGS:
            return []
        words = line.split(b" ")
        if words[0] in WITH_TOKENS:
            words[2] = hashlib.sha256(words[2]).hexdigest().encode()
        row = Row(connection, REQUEST, b" ".join(words), payload)
        if request.verb != "run":
            return [row]
        self.runs += 1
        return [row, Row(0, FINISHED, b"%d" % self.runs, None)]


def text_of(replies):
    """The bytes of replies."""
    return "".join(f"{line}\n" for reply in replies for line in reply).encode("latin1")


def tokens_in(*texts):
    """By its digest each word of texts that may be a token."""
    words = {word for text in texts for word in re.split(rb"[ \n]", text) if 0 < len(word) < 256}
    return {hashlib.sha256(word).hexdigest(): word for word in words}


def kill_at_some_time(store, text, wait):
    """Serves a script over a store, and kills the program after a time; what it had answered."""
    with subprocess.Popen(command(store), stdin=subprocess.PIPE, stdout=subprocess.PIPE, stderr=subprocess.DEVNULL) as process:
        def write():
            with suppress(BrokenPipeError, ValueError):
                process.stdin.write(text)
                process.stdin.close()

        writer = threading.Thread(target=write)
        killer = threading.Timer(wait, process.kill)
        writer.start()
        killer.start()
        told = process.stdout.read()
        killer.cancel()
        writer.join()
        return told, process.wait()


def looks(desk):
    """A script by which each user looks at what there is."""
    lines = []
    for user in sorted(desk.policy.users):
        lines += [f"open {user} {TOKEN}"]
        lines += [f"activate {role}" for role in sorted(desk.policy.authorized(user))]
        lines += ["whoami", "cells", "status", "markers", "waivers", "verdict", "close"]
    return "".join(f"{line}\n" for line in lines).encode("latin1")


class Difference(Exception):
    """Something isn't as it has to be."""


def check_killed(before, after, answered, told):
    """That what was answered is the model's, and that the rows are those of before, of the lines that were answered, and of at most one line
    more. How many rows are beyond those of the answered lines."""
    texts = [text_of([reply]) for reply, _ in answered]
    if not b"".join(texts).startswith(told):
        raise Difference("another reply")
    rows, at, number = list(before), 0, 0
    while number < len(answered) - 1 and at + len(texts[number]) <= len(told):
        at += len(texts[number])
        rows += answered[number][1]
        number += 1
    if after[:len(rows)] != rows:
        raise Difference(f"rows of {number} answered lines are missing")
    more = after[len(rows):]
    # The end of the connection leaves no reply, and neither do lines of none.
    if more != answered[number][1][:len(more)]:
        raise Difference(f"rows that no line left: {more}")
    return len(more)


def check_looks(store, rows, tokens):
    """That a reopened desk shows what the model's does."""
    kept = Kept(rows, tokens)
    if kept.runs != kept.finished:
        text = b"open root abc\nstatus\n"
        told, status, faults = serve(store, text)
        if told not in (text_of([["OK 0"], ["OK 1", f"cutting {kept.runs}"]]), text_of([["DENIED login"], ["DENIED session"]])) or status != 0:
            raise Difference(f"a run that was cut off: {told} {faults}")
        return
    connection = kept.reopen()
    text = looks(kept.desk)
    expected = text_of(reply for reply, _ in kept.answers(text, connection))
    told, status, faults = serve(store, text)
    if told != expected or status != 0:
        raise Difference(f"another look: {faults} {told[:200]} {expected[:200]}")


def try_kill(number, folder, tally):
    """A store that is killed twice, and looked at each time."""
    chance = random.Random(number)
    store = os.path.join(folder, "desk.db")
    group = chance.choice(GROUPS)
    before, texts = [], []
    for part in range(2):
        text = scripts.script_of(group, 2 * number + part)
        texts.append(text)
        tokens = tokens_in(b"abc", *texts)
        kept = Kept(before, tokens)
        if kept.runs != kept.finished:
            break
        connection = kept.reopen()
        start = list(kept.rows)
        answered = kept.answers(text, connection)
        told, status = kill_at_some_time(store, text, chance.uniform(.003, .006 + .0002 * len(answered)))
        after = rows_of(store)
        if len(after) < len(start):
            # It was killed before it had stored the ends of the sessions.
            if told or after != start[:len(after)] or len(after) < len(before):
                raise Difference("the ends of sessions")
        else:
            more = check_killed(start, after, answered, told)
            tally["rows more"] += more if status < 0 else 0
        tally["killed" if status < 0 else "ended"] += 1
        tally["rows"] += len(after)
        before = after
        with tempfile.TemporaryDirectory() as aside:
            check_looks(copied(store, aside), before, tokens)
    for end in ("", "-wal"):
        with suppress(FileNotFoundError):
            os.unlink(store + end)


def killed(times=500, first=0):
    """Random scripts that are killed."""
    tally, failed = Counter(), 0
    began = time.time()
    with tempfile.TemporaryDirectory() as folder:
        for number in range(first, first + times):
            try:
                try_kill(number, folder, tally)
            except (Difference, AssertionError) as difference:
                failed += 1
                print(f"{number}: {difference}")
                for end in ("", "-wal"):
                    with suppress(FileNotFoundError):
                        os.unlink(os.path.join(folder, "desk.db" + end))
    print(f"{times} stores, {tally['killed']} kills, {tally['ended']} ends, {tally['rows']} rows, {tally['rows more']} more than was answered, "
          f"{failed} differ, {time.time() - began:.0f} s")
    return failed


def script_of_rows(count, token="abc"):
    """A script that leaves so many small rows."""
    lines = [f"open root {token}", "activate officer"]
    for number in range((count - 2) // 2):
        lines += [f"addrole r{number % 300}", f"delrole r{number % 300}"]
    return "".join(f"{line}\n" for line in lines).encode()


def full():
    """A file system of a megabyte: the desk is closed, and what was accepted stands."""
    with tempfile.TemporaryDirectory() as folder:
        if subprocess.run(["mount", "-t", "tmpfs", "-o", "size=1m", "none", folder], check=False).returncode != 0:
            print("full: no file system can be mounted here")
            return 0
        try:
            store = os.path.join(folder, "desk.db")
            told, status, faults = serve(store, script_of_rows(4090))
            replies = told.split(b"\n")[:-1]
            accepted = replies.index(b"REFUSED 60 store") if b"REFUSED 60 store" in replies else len(replies)
            rest = set(replies[accepted + 1:])
            print(f"full: {accepted} accepted, then 60 store, then {rest or 'nothing'}, status {status}, {faults.strip()}")
            with tempfile.TemporaryDirectory() as roomy:
                copy = copied(store, roomy)
                rows = rows_of(store)
                again, status_again, faults_again = serve(copy, b"open root abc\nwhoami\n")
            print(f"full: {len(rows)} rows; with room again: {again} {status_again} {faults_again.strip()}")
            return int(not (status == 3 and rest <= {b"REFUSED 61 closed"} and len(rows) == accepted and again.startswith(b"OK 0\nOK 2\n")))
        finally:
            subprocess.run(["umount", folder], check=False)


def refused():
    """Files that can't be opened."""
    failed = 0
    with tempfile.TemporaryDirectory() as folder:
        def place(name):
            return os.path.join(folder, name)

        serve(place("desk.db"), b"open root abc\n")
        mode = os.stat(place("desk.db")).st_mode & 0o777
        os.mkdir(place("folder"))
        with open(place("text"), "wb") as file:
            file.write(b"this is no database\n" * 100)
        with closing(sqlite3.connect(place("other.db"))) as other:
            other.execute("create table notes(text)")
        shutil.copyfile(place("desk.db"), place("linked.db"))
        os.link(place("linked.db"), place("second.db"))
        shutil.copyfile(place("desk.db"), place("bad.db"))
        with closing(sqlite3.connect(place("bad.db"))) as bad, bad:
            bad.execute("insert into changes values (3, 1, 1, 'addrole x', null)")
        cases = [("folder", "is no regular file"), ("text", ""), ("other.db", "another database"), ("second.db", "two names"),
                 ("bad.db", "row 3 is no change"), ("no/desk.db", "can't be made"), ("desk.db", None)]
        for name, words in cases:
            told, status, faults = serve(place(name), b"open root abc\n")
            is_so = (status, told) == (0, b"OK 0\n") if words is None else status == 3 and told == b"" and words in faults
            failed += not is_so
            print(f"{name}: status {status}, {faults.strip() or told}{'' if is_so else ' NOT AS IT HAS TO BE'}")
        with subprocess.Popen(command(place("desk.db")), stdin=subprocess.PIPE, stdout=subprocess.PIPE) as holder:
            holder.stdin.write(b"open root abc\n")
            holder.stdin.flush()
            holder.stdout.readline()
            told, status, faults = serve(place("desk.db"), b"")
            failed += status != 3 or "busy" not in faults.lower() and "lock" not in faults.lower()
            print(f"a second process: status {status}, {faults.strip()}")
            holder.stdin.close()
            holder.wait()
        failed += mode != 0o600
        print(f"a new file has the mode {mode:o}")
    return failed


def made_store(folder, text):
    """A store of a script, closed, with its rows."""
    store = os.path.join(folder, "desk.db")
    told, status, faults = serve(store, text)
    assert status == 0, faults
    return store, rows_of(store)


def try_damaged(store, data, rows, tally):
    """Opens a store of these bytes, and tells what came of it: a named fault, or a desk of the first rows."""
    with open(store, "wb") as file:
        file.write(data)
    with suppress(FileNotFoundError):
        os.unlink(store + "-wal")
    told, status, faults = serve(store, b"")
    if status in (3, 5) and faults.startswith("error: the store: ") and not told:
        tally["named: " + re.sub("[0-9]+", "N", faults.strip())] += 1
        return True
    if status != 0 or told:
        print(f"status {status}, {faults}, {told}")
        return False
    try:
        found = rows_of(store)
    except (sqlite3.DatabaseError, AssertionError) as error:
        print(f"opened, and sqlite3 says {error}")
        return False
    is_front = found == rows[:len(found)]
    tally["a desk of the same rows" if found == rows else "a desk of the first rows" if is_front else "a desk of other rows"] += 1
    return is_front


def cut(places=1000):
    """A store that is cut off, and one with a wrong byte."""
    failed = 0
    chance = random.Random(1)
    with tempfile.TemporaryDirectory() as folder:
        text = scripts.script_of("mix", 3)
        store, rows = made_store(folder, text)
        with open(store, "rb") as file:
            data = file.read()
        print(f"a store of {len(rows)} rows and {len(data)} bytes")
        tally = Counter()
        for place in sorted(chance.randrange(len(data)) for _ in range(places)):
            failed += not try_damaged(store, data[:place], rows, tally)
        print("cut off:", *(f"\n  {count} times {what}" for what, count in tally.most_common()))
        tally = Counter()
        for _ in range(places):
            place = chance.randrange(len(data))
            wrong = bytes([data[place] ^ 1 << chance.randrange(8)])
            try_damaged(store, data[:place] + wrong + data[place + 1:], rows, tally)
        print("one wrong bit:", *(f"\n  {count} times {what}" for what, count in tally.most_common()))
    return failed


def appended_by_sqlite3(store, count):
    """Seconds in which sqlite3 appends so many rows, each in a transaction of its own that is synced."""
    connection = sqlite3.connect(store, isolation_level=None)
    connection.execute("pragma journal_mode=wal")
    connection.execute("pragma synchronous=full")
    connection.execute("CREATE TABLE changes(k INTEGER PRIMARY KEY, conn INTEGER NOT NULL, kind INTEGER NOT NULL, line TEXT NOT NULL, payload BLOB)")
    began = time.time()
    for number in range(count):
        connection.execute("insert into changes values (?, 1, 1, 'addrole r1', null)", (number + 1,))
    taken = time.time() - began
    connection.close()
    return taken


def peak_of(words, text=b""):
    """Seconds and the greatest resident memory in MB of a process."""
    began = time.time()
    with subprocess.Popen(words, stdin=subprocess.PIPE, stdout=subprocess.DEVNULL) as process:
        process.stdin.write(text)
        process.stdin.close()
        _, status, usage = os.wait4(process.pid, 0)
        process.returncode = os.waitstatus_to_exitcode(status)
    assert process.returncode == 0, process.returncode
    return time.time() - began, usage.ru_maxrss / 1024


def library_of_texts():
    """A library of nearly 2^24 bytes with one square and else TEXT elements, which a reader passes over."""
    def record(kind, data=b""):
        return struct.pack(">HH", 4 + len(data), kind) + data

    units = bytes.fromhex("3E4189374BC6A7F03944B82FA09B5A54")
    head = record(0x0002, b"\2\x58") + record(0x0102, bytes(24)) + record(0x0206, b"LB") + record(0x0305, units)
    head += record(0x0502, bytes(24)) + record(0x0606, b"TOP\0")
    layer, corners = record(0x0D02, b"\0\1"), struct.pack(">10i", 0, 0, 10, 0, 10, 10, 0, 10, 0, 0)
    square = record(0x0800) + layer + record(0x0E02, bytes(2)) + record(0x1003, corners) + record(0x1100)
    text = record(0x0C00) + layer + record(0x1602, bytes(2)) + record(0x1003, bytes(8)) + record(0x1906, b"a" * 400) + record(0x1100)
    tail = record(0x0700) + record(0x0400)
    return head + square + text * ((2**24 - len(head + square + tail)) // len(text)) + tail


def large(folder, library, count=64):
    """A store of a gigabyte of libraries: what it takes to make it, and to open it again."""
    lines = b"open root abc\nactivate officer\nadduser ann abc\naddrole alpha\nassign ann alpha\ngrant submit pad alpha\nclose\nopen ann abc\nactivate alpha\n"
    text = lines + b"".join(b"submit pad TOP %d\n" % len(library) + library for _ in range(count))
    store = os.path.join(folder, f"large-{len(library)}.db")
    taken, peak = peak_of(command(store), text)
    size = os.stat(store).st_size
    print(f"large: {count} libraries of {len(library)} bytes are stored in {taken:.1f} s with {peak:.0f} MB; the file has {size / 1e6:.0f} MB")
    taken, peak = peak_of(command(store))
    print(f"large: reopened in {taken:.1f} s with {peak:.0f} MB, the file's size and {peak - size / 2**20:.0f} MB")


def times():
    """Appends, reopenings and memory: of libraries that are shapes alone, and of such as have next to none."""
    from serve import large_library

    with tempfile.TemporaryDirectory(dir=os.environ.get("MPW_BENCH_FOLDER", TOP)) as folder:
        count = 4090
        began = time.time()
        store, rows = made_store(folder, script_of_rows(count))
        ours = time.time() - began
        theirs = appended_by_sqlite3(os.path.join(folder, "theirs.db"), len(rows))
        print(f"appends: {len(rows) / ours:.0f} a second with requests and replies, sqlite3 {len(rows) / theirs:.0f}")
        for _ in range(24):
            serve(store, script_of_rows(count))
        rows = len(rows_of(store))
        taken, peak = peak_of(command(store))
        print(f"reopening: {rows} small rows in {taken:.2f} s, {rows / taken:.0f} a second, {peak:.0f} MB")
        large(folder, large_library())
        large(folder, library_of_texts())
    return 0


def main(words):
    known = {"killed": killed, "full": full, "refused": refused, "cut": cut, "times": times}
    if not words or words[0] not in known:
        print(__doc__)
        return 2
    return int(known[words[0]](*map(int, words[1:])) > 0)


if __name__ == "__main__":
    sys.exit(main(sys.argv[1:]))
