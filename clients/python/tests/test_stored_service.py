"""`mpw serve --store FILE` over loopback: accepted changes are there after it was killed, another program is refused the file, and a disk that takes
no more closes the desk. The program is MPW_PROGRAM, else the one that the gate built."""
import os
import resource
import signal
import socket
import sqlite3
import subprocess
import sys
import tempfile
import threading
import time
import unittest
from contextlib import closing, contextmanager, suppress

import layouts
import test_serve as serving
from mpw_desk import Denied, Desk, Lost, Refused, State
from test_auditing import AUDITOR
from test_serve import DECK, DIGEST, LIMIT, MPW, TOP, small_disk

REQUEST, GONE, FINISHED = 1, 2, 3
# Bytes that a file may have where it takes no more than some hundred changes.
SMALL = 600_000


@contextmanager
def folder():
    with tempfile.TemporaryDirectory(prefix="mpw-stored-") as path:
        yield lambda name: os.path.join(path, name)


@contextmanager
def service(store, connections, *more, **popen):
    """A service over a store."""
    words = serving.words(connections, 2, "--store", store, *more)
    with subprocess.Popen(words, stdin=subprocess.DEVNULL, stdout=subprocess.PIPE, stderr=subprocess.PIPE, **popen) as process:
        try:
            yield serving.Service(process)
        finally:
            process.kill()


def new(store):
    """What a program prints on the standard error when it makes a store."""
    return f"mpw: {store} is new\n"


def has(store, rows, runs):
    """What a service prints on the standard error when it opens a store with so many rows and finished runs."""
    return f"mpw: {store} has {rows} row{'' if rows == 1 else 's'} and {runs} finished run{'' if runs == 1 else 's'}\n"


def rows_of(store):
    """The rows of a store that no program has open: connection, kind, line."""
    with closing(sqlite3.connect(store)) as database:
        found = database.execute("select k, conn, kind, line from changes order by k").fetchall()
    assert [row[0] for row in found] == list(range(1, len(found) + 1))
    return [row[1:] for row in found]


def ended(words):
    """The exit status of a program that ends by itself, what it printed, and what it printed on the standard error."""
    found = subprocess.run(words, stdin=subprocess.DEVNULL, stdout=subprocess.PIPE, stderr=subprocess.PIPE, timeout=LIMIT)
    return found.returncode, found.stdout.decode(), found.stderr.decode()


def limited():
    """Lets the files of a program grow so far alone; a write beyond it fails."""
    signal.signal(signal.SIGXFSZ, signal.SIG_IGN)
    resource.setrlimit(resource.RLIMIT_FSIZE, (SMALL, SMALL))


class Asking(threading.Thread):
    """A client that adds roles of its own, one after the other, until it is answered no more or otherwise."""

    def __init__(self, served, name):
        super().__init__()
        self.desk, self.name = served.desk(), name
        self.accepted, self.last, self.refused = [], None, None

    def run(self):
        with suppress(Lost, OSError):
            for number in range(500):
                self.last = f"{self.name}-{number}"
                try:
                    self.desk.addrole(self.last)
                except Refused as refused:
                    self.refused = refused
                    return
                self.accepted.append(self.last)


def is_there(desk, role):
    """Whether a role was added before; else it is now."""
    try:
        desk.addrole(role)
    except Refused as refused:
        if refused.code != 33:
            raise
        return True
    return False


@unittest.skipUnless(os.access(MPW, os.X_OK), f"{MPW} isn't built")
class Kept(unittest.TestCase):
    def test_killed_while_clients_ask(self):
        """Each accepted role is there, and at most the one more that each client was waiting for; the sessions are ended."""
        with folder() as at:
            with service(at("desk.db"), 4, "--ongoing") as served:
                asking = [Asking(served, f"role{number}") for number in range(3)]
                for client in asking:
                    client.start()
                while sum(len(client.accepted) for client in asking) < 60:
                    time.sleep(0.001)
                served.process.send_signal(signal.SIGKILL)
                for client in asking:
                    client.join()
                self.assertEqual(served.process.wait(), -signal.SIGKILL)
            told = sum(len(client.accepted) for client in asking)
            with service(at("desk.db"), 4, "--ongoing") as served:
                with Desk.connect("127.0.0.1", served.port) as desk, self.assertRaises(Denied):
                    desk.whoami()
                with served.desk() as desk:
                    for client in asking:
                        self.assertTrue(all(is_there(desk, role) for role in client.accepted))
                    more = sum(is_there(desk, client.last) for client in asking if client.last not in client.accepted)
                served.process.send_signal(signal.SIGKILL)
            rows = rows_of(at("desk.db"))
            before = 2 * len(asking) + told + more
            self.assertEqual([row[1] for row in rows[:before]], [REQUEST] * before)
            old = {row[0] for row in rows[:before]}
            self.assertEqual((len(old), rows[before:before + len(old)]), (len(asking), [(number, GONE, "") for number in sorted(old)]))
            self.assertTrue(all(number > max(old) for number, *_ in rows[before + len(old):]))

    def test_copied_while_clients_ask(self):
        """Each copy has the changes that were answered before it began, and a desk can be made of it."""
        with folder() as at:
            program, backup = at("mpw"), [sys.executable, "-SB", os.path.join(TOP, "clients", "python", "mpw-backup"), "--program", at("mpw")]
            with open(os.open(program, os.O_WRONLY | os.O_CREAT, 0o755), "w", encoding="ascii") as file:
                file.write(f'#!/bin/sh\nexec -a mpw {AUDITOR} "$@"\n'.replace("#!/bin/sh", "#!/usr/bin/env bash"))
            with service(at("desk.db"), 4, "--ongoing") as served:
                asking = [Asking(served, f"role{number}") for number in range(3)]
                for client in asking:
                    client.start()
                copies = []
                while len(copies) < 4:
                    told = sum(len(client.accepted) for client in asking)
                    status, said, error = ended([*backup, at("desk.db"), at("copies")])
                    self.assertEqual((status, error), (0, ""))
                    copies.append((told, said.partition(": rows ")))
                for client in asking:
                    client.join()
                served.process.send_signal(signal.SIGKILL)
            for told, (copied, _, rows) in copies:
                self.assertGreaterEqual(int(rows), told)
                self.assertEqual(ended([AUDITOR, "trail", os.path.join(copied, "desk.db")])[1].count("\n"), int(rows) + 1)
            with service(os.path.join(copies[-1][1][0], "desk.db"), 4, "--ongoing") as served, served.desk() as desk:
                self.assertTrue(is_there(desk, asking[0].accepted[0]))

    def test_first_session(self):
        """What the first session changes, in order, and the end of its connection."""
        with open(os.path.join(serving.TOP, "examples", "first-session.txt"), "rb") as file:
            lines = file.read()
        with folder() as at:
            with service(at("desk.db"), 1) as served:
                with served.connect() as end:
                    end.sendall(lines)
                    end.shutdown(socket.SHUT_WR)
                    serving.read_all(end)
                self.assertEqual(served.end()[0], 0)
            changes = [
                f"open root {DIGEST}", "activate officer", f"adduser ann {DIGEST}", "addrole alpha", "assign ann alpha", "grant read pad alpha",
                "close", f"open ann {DIGEST}", "activate alpha"]
            rows = rows_of(at("desk.db"))
            self.assertEqual([row[1:] for row in rows], [*((REQUEST, line) for line in changes), (GONE, "")])
            self.assertEqual(len({row[0] for row in rows}), 1)

    def test_finished_run(self):
        """A service that ended goes on with the run's markers and their waivers, on a file without its log."""
        with folder() as at:
            with service(at("desk.db"), 1) as served:
                desk = served.desk()
                serving.grant_all(desk, "pad")
                desk.submit("pad", "PAD", layouts.pad())
                desk.deck(DECK)
                desk.place("pad", "p", "R0", 0, 0)
                desk.run()
                self.assertIs(desk.wait(poll=0.01, limit=LIMIT).state, State.FINISHED)
                key = desk.markers().full[0].key
                desk.waive(key)
                desk.hang_up()
                self.assertEqual(served.end()[::2], (0, new(at("desk.db"))))
            rows = rows_of(at("desk.db"))
            self.assertEqual(sum(row[1:] == (FINISHED, "1") for row in rows), 1)
            self.assertEqual(rows[-1][1:], (GONE, ""))
            with service(at("desk.db"), 1) as served:
                desk = served.desk()
                self.assertIs(desk.status().state, State.FINISHED)
                self.assertEqual([marker.key for marker in desk.markers().full], [key])
                self.assertEqual([(waiver.key, waiver.asker) for waiver in desk.waivers()], [(key, "root")])
                with self.assertRaises(Denied):
                    desk.sign(key)
                desk.hang_up()
                self.assertEqual(served.end()[::2], (0, has(at("desk.db"), len(rows), 1)))
            self.assertEqual(rows_of(at("desk.db"))[:len(rows)], rows)

    def test_counts(self):
        """How many rows and finished runs a store has is printed before a desk gets the first row, so also if that refuses it. A store without its table has
        no such line, and one with a bad row isn't counted."""
        with folder() as at:
            store = at("desk.db")
            stranger = [word.replace("root", "ann") for word in serving.words(1, 1, "--store", store)]
            with service(store, 1) as served:
                with served.desk() as desk:
                    serving.grant_all(desk, "pad")
                    desk.submit("pad", "PAD", layouts.pad())
                    desk.deck(DECK)
                    desk.place("pad", "p", "R0", 0, 0)
                    for _ in range(2):
                        desk.run()
                        self.assertIs(desk.wait(poll=0.01, limit=LIMIT).state, State.FINISHED)
                self.assertEqual(served.end()[::2], (0, new(store)))
            rows = rows_of(store)
            other = "error: the store: it belongs to another officer or token."
            status, printed, told = ended(stranger)
            self.assertEqual((status, printed, told.startswith(has(store, len(rows), 2) + other)), (3, "", True), told)
            with closing(sqlite3.connect(store)) as database:
                database.execute("delete from changes where k > 1")
                database.commit()
            status, printed, told = ended(stranger)
            self.assertEqual((status, printed, told.startswith(has(store, 1, 0) + other)), (3, "", True), told)
            with closing(sqlite3.connect(store)) as database:
                database.execute("update changes set k = 2")
                database.commit()
            status, printed, told = ended(stranger)
            self.assertEqual((status, printed, told.startswith(other)), (3, "", True), told)

    def test_a_script_goes_on_from_a_service(self):
        with folder() as at:
            with service(at("desk.db"), 1) as served:
                with served.desk() as desk:
                    desk.addrole("alpha")
                self.assertEqual(served.end()[::2], (0, new(at("desk.db"))))
            script = [MPW, "script", "--officer", "root", "--digest", DIGEST, "--store", at("desk.db")]
            told = subprocess.run(script, input=b"open root abc\nactivate officer\naddrole alpha\n", stdout=subprocess.PIPE, timeout=LIMIT)
            self.assertEqual((told.returncode, told.stdout), (0, b"OK 0\nOK 0\nREFUSED 33 known\n"))

    def test_who_else_opens_it(self):
        """A second program is refused the file, whose name it prints, and the first goes on."""
        with folder() as at:
            with service(at("desk.db"), 2) as served:
                with served.desk() as desk:
                    script = [MPW, "script", "--officer", "root", "--digest", DIGEST, "--store", at("desk.db")]
                    for words in serving.words(1, 1, "--store", at("desk.db")), script:
                        self.assertEqual(ended(words), (3, "", "error: the store: database is locked\n"))
                    desk.addrole("alpha")
                with served.connect():
                    pass
                self.assertEqual(served.end()[::2], (0, new(at("desk.db"))))
            self.assertEqual([row[2] for row in rows_of(at("desk.db"))][2], "addrole alpha")

    def test_what_is_no_store(self):
        """A fault of the file comes before anything is bound or printed, and the file stays as it is. No interface has the address, which is reserved for documentation."""
        with folder() as at:
            with closing(sqlite3.connect(at("other.db"))) as other:
                other.execute("create table notes(text)")
            with open(at("other.db"), "rb") as file:
                before = file.read()
            status, printed, told = ended(serving.words(1, 1, "--store", at("other.db"), listen="192.0.2.1:7001"))
            self.assertEqual((status, printed, "another database" in told), (3, "", True), told)
            with open(at("other.db"), "rb") as file:
                self.assertEqual(file.read(), before)
            status, printed, told = ended(serving.words(1, 1, "--store", at("new.db"), listen="192.0.2.1:7001"))
            self.assertEqual((status, printed, told), (3, "", new(at("new.db")) + "error: the address can't be bound\n"))
            self.assertEqual(rows_of(at("new.db")), [])

    def test_conditions(self):
        """Each condition on the store's file, which a service and a script test before they bind or read anything; and the file stays as it is."""
        with folder() as at:
            store = at("desk.db")
            script = [MPW, "script", "--officer", "root", "--digest", DIGEST, "--store", store]
            commands = script, serving.words(1, 1, "--store", store, listen="192.0.2.1:7001")

            def refused(words, *more):
                for command in commands:
                    status, printed, told = ended([*command, *more])
                    self.assertEqual((status, printed, told.count("\n")), (3, "", 1), told)
                    self.assertTrue(told.startswith("error: the store: "), told)
                    self.assertIn(words, told)

            refused("no file of that name", "--existing")
            self.assertEqual(os.listdir(os.path.dirname(store)), [])
            self.assertEqual(ended([*script, "--new", "--private"]), (0, "", new(store)))
            refused("already", "--new")
            self.assertEqual(ended([*script, "--existing", "--private"]), (0, "", ""))
            os.chmod(store, 0o604)
            refused("chmod go-rw", "--private")
            status, printed, told = ended(script)
            self.assertEqual((status, printed, told.count("\n"), told[:19]), (0, "", 1, "warning: the store:"), told)
            os.chmod(store, 0o600)
            with open(store, "rb") as file:
                whole = file.read()
            os.truncate(store, 0)
            refused("the file is empty", "--existing")
            with open(store, "wb") as file:
                file.write(whole)
            self.assertEqual(ended(script), (0, "", ""))

    def test_another_officer(self):
        """The store of another officer, or of another token, is named as such."""
        with folder() as at:
            script = [MPW, "script", "--officer", "root", "--digest", DIGEST, "--store", at("desk.db")]
            told = subprocess.run(script, input=b"open root abc\n", stdout=subprocess.PIPE, timeout=LIMIT)
            self.assertEqual((told.returncode, told.stdout), (0, b"OK 0\n"))
            for other in [word.replace("root", "ann") for word in script], [word.replace(DIGEST, "0" * 64) for word in script]:
                status, printed, told = ended(other)
                self.assertEqual((status, printed, "another officer or token" in told), (3, "", True), told)

    def test_a_log_without_its_file(self):
        """A log with changes is refused by every command if its file is missing or empty. Nothing is made, and the log stays."""
        with folder() as at:
            store = at("desk.db")
            with service(store, 2) as served:
                with served.desk() as desk:
                    desk.addrole("alpha")
                served.process.send_signal(signal.SIGKILL)
                served.process.wait()
            with open(f"{store}-wal", "rb") as file:
                log = file.read()
            os.unlink(store)
            script = [MPW, "script", "--officer", "root", "--digest", DIGEST, "--store", store]
            for names in ["desk.db-wal"], ["desk.db", "desk.db-wal"]:
                for words in script, [*script, "--new"], serving.words(1, 1, "--store", store, listen="192.0.2.1:7001"):
                    status, printed, told = ended(words)
                    self.assertEqual((status, printed, "but the log next to it" in told), (3, "", True), told)
                self.assertEqual(sorted(os.listdir(os.path.dirname(store))), names)
                with open(f"{store}-wal", "rb") as file:
                    self.assertEqual(file.read(), log)
                with open(store, "wb"):
                    pass


@unittest.skipUnless(os.access(MPW, os.X_OK), f"{MPW} isn't built")
class Full(unittest.TestCase):
    def closed_by(self, store, **popen):
        """An ongoing service whose disk takes no more: a request is refused for it, and every later one on each connection. The service ends with the
        connection that got this refusal. What it printed on the standard error, and the roles that were accepted."""
        with service(store, 2, "--ongoing", **popen) as served:
            other = served.desk()
            client = Asking(served, "role")
            client.start()
            client.join()
            self.assertEqual((client.refused.code, client.refused.word), (60, "store"))
            for desk in client.desk, other:
                with self.assertRaises(Refused) as refused:
                    desk.whoami()
                self.assertEqual((refused.exception.code, refused.exception.word), (61, "closed"))
            client.desk.hang_up()
            status, printed, told = served.end()
            with self.assertRaises((Lost, OSError)):
                other.whoami()
        self.assertEqual(status, 3)
        self.assertRegex(printed, "calls [0-9]+\n")
        return told.removeprefix(new(store)), client

    def goes_on(self, store, client):
        """With room again each role that was accepted is there, and the one that was refused isn't."""
        with service(store, 1) as served:
            with served.desk() as desk:
                self.assertTrue(all(is_there(desk, role) for role in client.accepted))
                self.assertFalse(is_there(desk, client.last))
            self.assertRegex(served.end()[2], r"\Ampw: [^ ]+ has [0-9]+ rows and 0 finished runs\n\Z")

    def test_a_file_that_may_not_grow(self):
        with folder() as at:
            told, client = self.closed_by(at("desk.db"), preexec_fn=limited)
            self.assertRegex(told, r"\Aerror: the store: [^\n]+\n(warning: the store: [^\n]+\n)?\Z")
            self.assertGreater(len(client.accepted), 10)
            self.goes_on(at("desk.db"), client)

    def test_a_disk_that_is_full(self):
        with small_disk() as at:
            told, client = self.closed_by(at("desk.db"))
            self.assertTrue(told.startswith("error: the store: database or disk is full\n"), told)
            subprocess.run(["mount", "-o", "remount,size=8m", os.path.dirname(at("desk.db"))], check=True)
            self.goes_on(at("desk.db"), client)

    def test_connections_in_all(self):
        """A service of some connections in all ends with the first that got the refusal of a closed desk."""
        with folder() as at:
            with service(at("desk.db"), 3, preexec_fn=limited) as served:
                client = Asking(served, "role")
                client.start()
                client.join()
                client.desk.hang_up()
                status, printed, told = served.end()
            self.assertEqual((client.refused.code, status), (60, 3))
            self.assertRegex(printed, "calls [0-9]+\n")
            self.assertTrue(told.removeprefix(new(at("desk.db"))).startswith("error: the store: "), told)
