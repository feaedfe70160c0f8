#!/usr/bin/env python3
"""What each request costs at the worst input that the limits allow: seconds and memory of the built program, and how long others wait meanwhile.

  cost.py [ROW ..]      policy, sets, listings, submissions, decks, wafer, runs, trail; all where none is named

Each row is of a service of its own on loopback, whose other connections stand by. The time is that of a request with its reply, as one client sees it, in the middle of
those that were asked; requests of less than a millisecond are asked many at once, and the time is the whole divided by their number. Meanwhile another
connection asks `whoami` every millisecond: its greatest wait says how long the desk was locked, and what else the machine did. Before each row it is told how
long that is with nothing asked. The memory is how far the greatest resident size went beyond what was there before.
"""
import multiprocessing
import statistics
import sys
import threading
import time

import hostile
from hostile import Client, resident, service
from make import BGNSTR, ENDEL, ENDSTR, SNAME, SREF, STRNAME, XY, box, library, long, record, structure  # noqa: E402

hostile.MOST_MEMORY = 16 << 30
MOST_LINES = 4000
BATCH = 500


# What waits beside.


def wait_beside(port, user, until, told):
    """Asks `whoami` every millisecond until it is told to stop; the greatest wait since the last look."""
    client = Many(port, b"open %s abc" % user)
    longest = 0.0
    while not until.is_set():
        begun = time.monotonic()
        client.ask(b"whoami")
        client.lines += 1
        longest = max(longest, time.monotonic() - begun)
        if told["ask"].is_set():
            told["ask"].clear()
            told["found"].put(longest)
            longest = 0.0
        if client.lines > MOST_LINES:
            client.anew()
        time.sleep(0.001)
    client.close()


class Beside:
    """A process that waits for `whoami` beside what is measured."""

    def __init__(self, port, user=b"root"):
        self.until = multiprocessing.Event()
        self.told = {"ask": multiprocessing.Event(), "found": multiprocessing.Queue()}
        self.process = multiprocessing.Process(target=wait_beside, args=(port, user, self.until, self.told))
        self.process.start()
        self.longest()

    def longest(self):
        """The greatest wait since it was asked last."""
        self.told["ask"].set()
        return self.told["found"].get()

    def end(self):
        self.until.set()
        self.process.join()


class Many(Client):
    """A connection that sends many lines ahead, and begins anew before its lines are spent."""

    def __init__(self, port, *begin):
        super().__init__(port)
        self.port, self.begin, self.lines = port, begin, 0
        for line in begin:
            self.need(line)
        self.lines = len(begin)

    def reply(self):
        """A reply. There is none if a newcomer took the place of this connection before it had a session."""
        found = super().reply()
        if not found[0]:
            raise ConnectionError
        return found

    def anew(self):
        self.close()
        while True:
            try:
                self.__init__(self.port, *self.begin)
                return
            except (ConnectionError, IndexError):
                time.sleep(0.01)

    def all(self, lines, accepted=b"OK"):
        """Asks all lines, some hundred at a time; how many were accepted."""
        count = 0
        for start in range(0, len(lines), BATCH):
            part = lines[start:start + BATCH]
            if self.lines + len(part) > MOST_LINES:
                self.anew()
            sending = threading.Thread(target=self.end.sendall, args=(b"".join(line + b"\n" for line in part),))
            sending.start()
            replies = [self.reply()[0] for _ in part]
            sending.join()
            self.lines += len(part)
            wrong = [(line, reply) for line, reply in zip(part, replies) if not reply.startswith(accepted)]
            if wrong:
                raise SystemExit(f"not accepted: {wrong[:2]}")
            count += len(part)
        return count


class Row:
    """The rows of one service."""

    def __init__(self, process, beside):
        self.process, self.beside = process, beside
        time.sleep(0.3)
        beside.longest()
        time.sleep(0.5)
        print(f"| | (nothing asked) | | {1000 * beside.longest():.0f} ms | |", flush=True)

    def tell(self, request, what, seconds, before, note=""):
        peak, _ = resident(self.process)
        wait = self.beside.longest()
        print(f"| `{request}` | {what} | {told_seconds(seconds)} | {1000 * wait:.0f} ms | {peak - before:.0f} MB{note} |", flush=True)

    def begin(self):
        with open(f"/proc/{self.process.pid}/clear_refs", "w", encoding="ascii") as file:
            file.write("5")
        self.beside.longest()
        return resident(self.process)[1]

    def many(self, request, what, client, lines, accepted=b"OK"):
        """Lines of which each takes little: the time of all, divided."""
        if client.lines + len(lines) > MOST_LINES:
            client.anew()
        before, begun = self.begin(), time.monotonic()
        client.all(lines, accepted)
        self.tell(request, what, (time.monotonic() - begun) / len(lines), before)

    def each(self, request, what, client, line, payload=None, times=3, accepted=b"OK"):
        """A request that takes long, some times: the time in the middle."""
        before, taken = self.begin(), []
        for _ in range(times):
            begun = time.monotonic()
            reply = raw_reply(client, line, payload)
            taken.append(time.monotonic() - begun)
            client.lines = getattr(client, "lines", 0) + 1
        if not reply[0].startswith(accepted):
            raise SystemExit(f"{line[:80]}: {reply}")
        self.tell(request, what, statistics.median(taken), before, f", {reply[1]} bytes" if reply[1] > 1000 else "")


def raw_reply(client, line, payload):
    """The first line of a reply, and how many bytes its lines have: read in large pieces, since listings are long."""
    sending = threading.Thread(target=client.end.sendall, args=(line + b"\n" if payload is None else b"%s %d\n" % (line, len(payload)) + payload,))
    sending.start()
    first = client.given.readline().rstrip(b"\n")
    left, size = int(first.split()[1]) if first.startswith(b"OK ") else 0, 0
    while left > 0:
        part = client.given.read1(1 << 20)
        left -= part.count(b"\n")
        size += len(part)
    sending.join()
    return first, size


def told_seconds(seconds):
    return f"{1e6 * seconds:.1f} µs" if seconds < 1e-3 else f"{1000 * seconds:.1f} ms" if seconds < 1 else f"{seconds:.2f} s"


OFFICER = (b"open root abc", b"activate officer")


def officer_of(port, *cells):
    """The officer, who may do all over some cells."""
    client = Many(port, *OFFICER)
    client.all([b"grant %s %s officer" % (operation, cell) for cell in cells for operation in (b"submit", b"read", b"place")])
    client.all([b"grant %s desk officer" % operation for operation in (b"deck", b"run", b"waive", b"verdict", b"audit")])
    return client


# The policy.



def build(port, pairs):
    """510 roles of 511 that may be, each above all that follow it or just the next, with 510 users who have all of them, 4095 grants, and 63 sets of each kind."""
    client = Many(port, *OFFICER)
    roles = [b"r%d" % k for k in range(510)]
    client.all([b"addrole " + role for role in roles])
    if pairs == "all":
        client.all([b"inherit %s %s" % (roles[i], roles[j]) for i in range(510) for j in range(i + 1, 510)])
    else:
        client.all([b"inherit %s %s" % pair for pair in zip(roles, roles[1:])])
    users = [b"u%d" % k for k in range(510)]
    client.all([b"adduser %s abc" % user for user in users])
    client.all([b"assign %s %s" % (user, role) for user in users for role in (roles if pairs == "all" else roles[:1])])
    client.all([b"grant read c%d %s" % (k, roles[k % 510]) for k in range(4094)])
    every = b" ".join([b"officer", *roles])
    client.all([b"%s s%d 511 %s" % (kind, k, every) for kind in (b"ssd", b"dsd") for k in range(63)])
    client.close()
    return roles


def policy(pairs="all"):
    with service(64, 1, "--ongoing") as (process, port):
        begun = time.monotonic()
        roles = build(port, pairs)
        sessions = [Many(port, b"open u%d abc" % k) for k in range(60)]
        for it in sessions:
            it.all([b"activate " + role for role in roles])
        text = "130,000 pairs" if pairs == "all" else "a chain of 510"
        print(f"# 511 users and roles, {text}, {'260,000' if pairs == 'all' else '510'} assignments, 4095 grants, 63 sets of 511 roles of each kind, 62 sessions with 510 active roles each: "
              f"{time.monotonic() - begun:.0f} s, {resident(process)[1]:.0f} MB", flush=True)
        beside, client, user = Beside(port), Many(port, *OFFICER), sessions[0]
        row = Row(process, beside)
        row.many("whoami", "1021 lines", Many(port, b"open u70 abc", *(b"activate " + role for role in roles)), [b"whoami"] * 300)
        row.many("activate, drop", "a session of 509 other roles", user, [b"drop r5", b"activate r5"] * 500)
        row.many("open, close", "62 other sessions", sessions[1], [b"close", b"open u1 abc"] * 500)
        row.many("adduser, deluser", "the 512th user", client, [b"adduser last abc", b"deluser last"] * 300)
        role = b"r7" if pairs == "all" else b"r0"
        row.many("assign, deassign", "one of 510 roles" if pairs == "all" else "a role with 509 below it", client, [b"deassign u200 " + role, b"assign u200 " + role] * 50)
        row.many("grant, revoke", "the 4096th grant", client, [b"grant read last r1", b"revoke read last r1"] * 300)
        row.many("addrole, delrole", "the 512th role", client, [b"addrole last", b"delrole last"] * 20)
        row.many("inherit, uninherit", text, client, [b"uninherit r1 r2", b"inherit r1 r2"] * 5)
        every = b" ".join([b"officer", *roles])
        row.many("ssd, unssd", "the 64th set, of 511 roles", client, [b"ssd last 511 " + every, b"unssd last"] * 30)
        row.many("dsd, undsd", "the 64th set, of 511 roles", client, [b"dsd last 511 " + every, b"undsd last"] * 30)
        row.many("whoami", "a denied one: no session", Many(port, b"open root abc", b"close"), [b"whoami"] * 3000, b"DENIED")
        beside.end()


# The shelf.


def sref(name, x=0, y=0):
    return record(SREF) + record(SNAME, name + b"\0" * (len(name) % 2)) + record(XY, long(x, y)) + record(ENDEL)


def bare(name, *parts):
    """A structure without a time, which nobody looks at."""
    return record(BGNSTR) + record(STRNAME, name + b"\0" * (len(name) % 2)) + b"".join(parts) + record(ENDSTR)


DIGITS = b"".join(bytes([k]) for k in range(0x21, 0x7F))


def word(number, size):
    """A name of so many letters."""
    found = bytearray()
    for _ in range(size):
        number, digit = divmod(number, len(DIGITS))
        found.append(DIGITS[digit])
    return bytes(found)


def filled(make, size, head=b"", foot=b""):
    """A library of 2^24 bytes at most, by parts of one size."""
    room = 2**24 - len(library()) - len(head) - len(foot)
    count = room // size
    return library(head + b"".join(make(k) for k in range(count)) + foot), count


def all_structures():
    top = bare(b"TOP", box(1, 0, 0, 10, 10))
    return filled(lambda k: bare(word(k, 4)), len(bare(b"abcd")), top)


def all_reached():
    """A top that places each of its structures once."""
    size = len(bare(b"abcd") + sref(b"abcd"))
    count = (2**24 - 1024) // size
    names = [word(k, 4) for k in range(count)]
    return library(bare(b"TOP", box(1, 0, 0, 9, 9), *(sref(name) for name in names)), *(bare(name) for name in names)), count


def all_outside():
    head = record(BGNSTR) + record(STRNAME, b"TOP\0")
    return filled(lambda k: sref(word(k, 4)), len(sref(b"abcd")), head, record(ENDSTR))


def all_one():
    head = bare(b"PART", box(1, 0, 0, 10, 10)) + record(BGNSTR) + record(STRNAME, b"TOP\0")
    return filled(lambda k: sref(b"PART", k, 0), len(sref(b"PART")), head, record(ENDSTR))


def chain(count):
    names = [b"s%06d" % k for k in range(count)]
    parts = [bare(name, sref(below)) for name, below in zip(names, names[1:])]
    return library(bare(b"TOP", sref(names[0])), *parts, bare(names[-1], box(1, 0, 0, 10, 10)))


def large():
    return filled(lambda k: box(1, 20 * (k % 1000), 20 * (k // 1000), 20 * (k % 1000) + 10, 20 * (k // 1000) + 10), len(box(1, 0, 0, 1, 1)),
                  record(BGNSTR) + record(STRNAME, b"TOP\0"), record(ENDSTR))


def submissions():
    with service(64, 1, "--ongoing") as (process, port):
        client = officer_of(port, b"chip")
        row = Row(process, Beside(port))
        for what, (data, count), accepted in (
                ("{} boundaries", large(), b"OK"), ("{} structures, of which none is reached", all_structures(), b"OK"),
                ("{} structures, each reached", all_reached(), b"OK"), ("{} names outside", all_outside(), b"DENIED permission use"),
                ("{} references to one structure", all_one(), b"OK"), ("a chain of {} structures", (chain(200000), 200000), b"REFUSED 26 deep"),
                ("a chain of {} structures", (chain(63), 63), b"OK")):
            row.each("submit", f"{len(data):,} bytes: {what.format(f'{count:,}')}", client, b"submit chip TOP", data, 3, accepted)
        client.close()
        row.beside.end()
    with service(64, 1, "--ongoing") as (process, port):
        cells = [b"c%d" % k for k in range(1023)]
        client = Many(port, *OFFICER)
        client.all([b"grant %s %s officer" % (operation, cell) for cell in cells for operation in (b"submit", b"use", b"read")])
        client.all([b"grant %s top officer" % operation for operation in (b"submit", b"read", b"place")])
        small = library(bare(b"TOP", box(1, 0, 0, 10, 10)))
        for k in range(4092):
            if client.lines > 3900:
                client.anew()
            client.need(b"submit %s TOP" % cells[k % 1023], small)
            client.lines += 1
        client.anew()
        row = Row(process, Beside(port))
        row.many("cells", "1023 cells, of which each may be read, with 4092 submissions", client, [b"cells"] * 100)
        every = library(bare(b"TOP", *(sref(cell) for cell in cells)))
        row.each("submit", "1023 outside names, each used, behind 4092 submissions", client, b"submit top TOP", every, 1)
        row.each("shapes", "1023 shapes of as many cells, each readable", client, b"shapes top", None, 20)
        row.beside.end()


def listings():
    with service(64, 1, "--ongoing") as (process, port):
        client = officer_of(port, b"chip")
        grid = library(structure("DOT", box(1, 0, 0, 4, 4)), structure("TOP", hostile.reference("DOT", 1024, 1024, 10, 10)))
        client.need(b"submit chip TOP", grid)
        row = Row(process, Beside(port))
        row.each("shapes", "2^20 shapes of an array", client, b"shapes chip")
        towers = b"".join(bare(b"L%02d\0" % k, sref(b"L%02d\0" % (k + 1))) for k in range(61)) + bare(b"L61\0", box(1, 0, 0, 4, 4))
        client.need(b"submit chip TOP", library(towers, structure("TOP", hostile.reference("L00", 1024, 1024, 10, 10))))
        row.each("shapes", "2^20 shapes, each 63 levels deep", client, b"shapes chip")
        row.beside.end()


def decks():
    with service(64, 1, "--ongoing") as (process, port):
        client = officer_of(port, b"chip")
        row = Row(process, Beside(port))
        names = [b"%03d" % k + b"n" * 252 for k in range(256)]
        rules = b"".join(b"enclosing %s 65535/65535 65534/65535 65535\n" % name for name in names)
        row.each("deck", "256 rules with names of 255 bytes", client, b"deck", b"tile 256\n" + rules, 20)
        row.each("deck", "2^24 bytes, all line feeds", client, b"deck", b"\n" * 2**24, 3, b"REFUSED 56")
        row.each("deck", "2^24 bytes: a tile, and then line feeds", client, b"deck", b"tile 256\n" + b"\n" * (2**24 - 9), 3, b"REFUSED 51")
        row.each("deck", "2^24 bytes: one line of spaces", client, b"deck", b"tile" + b" " * (2**24 - 4), 3, b"REFUSED 51")
        row.beside.end()


# The wafer.


def wafer():
    with service(64, 2, "--ongoing") as (process, port):
        client = officer_of(port, b"chip")
        grid = library(structure("DOT", box(1, 0, 0, 4, 4)), structure("TOP", hostile.reference("DOT", 16, 16, 10, 10)))
        client.need(b"submit chip TOP", grid)
        client.need(b"deck", b"tile 256\nspace s 1/0 7\nwidth w 1/0 5\n")
        client.all([b"place chip l%d R0 %d %d" % (k, 256 * (k % 64), 256 * (k // 64)) for k in range(4095)])
        row = Row(process, Beside(port))
        row.many("place, unplace", "the 4096th placement, 2^20 shapes", client, [b"place chip l4095 R0 16128 16128", b"unplace chip l4095"] * 100)
        row.many("unplace, place", "the first of 4095", client, [b"unplace chip l0", b"place chip l0 R0 0 0"] * 100)
        client.need(b"place chip l4095 R0 16128 16128")
        before, taken, longest = row.begin(), [], 0.0
        for _ in range(3):
            begun = time.monotonic()
            client.need(b"run")
            taken.append(time.monotonic() - begun)
            finished(client)
            longest = max(longest, time.monotonic() - begun)
        row.tell("run", f"4096 placements, 2^20 shapes, 4096 tiles; finished after {longest:.2f} s", statistics.median(taken), before)
        before, taken = row.begin(), []
        for _ in range(5):
            client.need(b"run")
            time.sleep(0.05)
            begun = time.monotonic()
            client.ask(b"cancel")
            taken.append(time.monotonic() - begun)
        row.tell("cancel", "of that run", statistics.median(taken), before)
        row.beside.end()


def finished(client):
    """Asks how far the run is until it is finished."""
    while not client.need(b"status")[1].startswith(b"finished"):
        client.lines += 1
        time.sleep(0.02)


def runs():
    for what, make, deck in (
            ("8,386,560 markers of a row of 4096 bars", lambda: hostile.bars(4096, 1), b"tile 1073741824\nspace s 1/0 65535\n"),
            ("the same in 32 tiles", lambda: hostile.bars(4096, 1), b"tile 256\nspace s 1/0 65535\n"),
            ("1,571,328 markers of an array", None, b"tile 8192\nwidth w 1/0 56\nspace s 1/0 51\nseparation p 1/0 2/0 9\nenclosing e 1/0 2/0 10\n")):
        with service(64, 4, "--ongoing") as (process, port):
            client = officer_of(port, b"chip")
            client.need(b"submit chip TOP", make() if make else cells_of_four())
            client.need(b"place chip a R0 0 0")
            client.need(b"deck", deck)
            row = Row(process, Beside(port))
            before, begun = row.begin(), time.monotonic()
            client.need(b"run")
            finished(client)
            row.tell("run", f"{what}: until it is finished", time.monotonic() - begun, before)
            row.each("markers", what, client, b"markers", None, 2)
            keys = some_keys(client)
            row.many("waive", what, client, [b"waive " + key for key in keys])
            row.each("waivers", f"{len(keys)} of {what}", client, b"waivers", None, 3)
            row.each("verdict", what, client, b"verdict", None, 20)
            row.many("status", what, client, [b"status"] * 500)
            before, begun = row.begin(), time.monotonic()
            client.need(b"run")
            row.tell("run", f"which drops {what}", time.monotonic() - begun, before)
            row.beside.end()


def some_keys(client):
    """Keys of 1000 markers from all over the listing."""
    client.end.sendall(b"markers\n")
    count = int(client.given.readline().split()[1])
    step, keys = max(1, count // 1000), []
    for place in range(count):
        line = client.given.readline()
        if place % step == 0 and not line.startswith(b"masked"):
            keys.append(line.split()[0])
    return keys


def cells_of_four():
    """The cells of runs.py's array."""
    parts = [(1, 0, 0, 100, 250), (1, 0, 100, 250, 150), (1, 200, 0, 250, 90), (2, 20, 20, 60, 60)]
    return library(structure("E", *(box(*part) for part in parts)), structure("TOP", hostile.reference("E", 512, 512, 300, 300)))


# The trail.


def trail():
    with service(64, 1, "--ongoing") as (process, port):
        client = officer_of(port)
        longest = b"assign %s %s" % (b"u" * 255, b"r" * 255)
        for _ in range(200):
            client.anew()
            client.all([longest] * 3990, b"REFUSED 32")
        client.anew()
        row = Row(process, Beside(port))
        row.each("trail", "798,000 requests with objects of 255 bytes", client, b"trail", None, 2)
        row.many("whoami", "behind them", client, [b"whoami"] * 1000)
        row.beside.end()


ROWS = {"policy": policy, "chain": lambda: policy("chain"), "listings": listings, "submissions": submissions, "decks": decks, "wafer": wafer, "runs": runs, "trail": trail}


def main(words):
    print("| Request | Worst input | Time | Greatest wait of another | Memory beyond |")
    print("|-|-|-|-|-|")
    for name in words or ROWS:
        ROWS[name]()


if __name__ == "__main__":
    main(sys.argv[1:])
