"""What a desk over a store stores, and what becomes of files that are none: each case runs the program in a folder of its own and gives what
differs from what is expected, which is written here by hand.
"""
import hashlib
import os
import shutil
import signal
import socket
import sqlite3
import subprocess
import tempfile

HERE = os.path.dirname(os.path.abspath(__file__))
MPW = os.path.join(os.path.dirname(HERE), "mpw")
DIGEST = "ba7816bf8f01cfea414140de5dae2223b00361a396177a9cb410ff61f20015ad"
SCRIPT = ["script", "--officer", "root", "--digest", DIGEST, "--store"]
SERVE = ["serve", "--listen", "127.0.0.1:0", "--connections", "1", "--workers", "1", "--officer", "root", "--digest", DIGEST, "--store"]
ASKED = ["open root abc", "activate officer", "adduser ann abc", "addrole alpha", "assign ann alpha", "grant read pad alpha", "close", "open ann abc", "activate alpha"]


def rows_of(connection):
    """The rows that these lines of a connection leave, and its end, as `mpw trail` lists them."""
    lines = [f"{place},{connection},request,{line.replace(' abc', ' ' + DIGEST)}" for place, line in enumerate(ASKED, 1)]
    return ["place,connection,kind,line", *lines, f"10,{connection},gone,"]


*ROWS, GONE = rows_of(1)


def report(rows, frames=0):
    """What `mpw store check` prints of a sound store."""
    owner = ["officer root"] if rows else []
    return [f"rows {rows}", *owner, f"log frames {frames}", "frames after the last commit 0",
            "not noticed: a change that became another valid one, the officer's token, and the loss of a whole log"]


# What the standard error has when a store is made.
NEW = ["mpw: desk.db is new"]


def has(rows):
    """What it has when a script goes on from a store of so many rows without a run."""
    return [f"mpw: desk.db has {rows} rows and 0 finished runs"]


class Folder:
    """A folder for stores."""

    def __init__(self):
        self.path = tempfile.mkdtemp(prefix="mpw-stores-")

    def __enter__(self):
        return self

    def __exit__(self, *_):
        shutil.rmtree(self.path)

    def file(self, name):
        return os.path.join(self.path, name)

    def names(self):
        return sorted(os.listdir(self.path))

    def run(self, *words, lines=()):
        """The status, the lines that were printed, and those of the standard error."""
        text = "".join(f"{line}\n" for line in lines)
        ended = subprocess.run([MPW, *words], cwd=self.path, input=text, text=True, capture_output=True)
        return ended.returncode, ended.stdout.splitlines(), ended.stderr.splitlines()

    def begin(self, lines):
        """A script that goes on after these lines, each of which was answered with a line."""
        process = subprocess.Popen([MPW, *SCRIPT, "desk.db"], cwd=self.path, text=True, stdin=subprocess.PIPE, stdout=subprocess.PIPE)
        for line in lines:
            process.stdin.write(f"{line}\n")
            process.stdin.flush()
            assert process.stdout.readline() == "OK 0\n", line
        return process


def differing(what, found, expected):
    """What is found, where it isn't what is expected."""
    return [] if found == expected else [f"{what}: {found!r}, expected {expected!r}"]


def kept():
    """A session's changes are stored; the desk goes on from them, with connections of greater numbers."""
    with Folder() as folder:
        found = differing("the first session", folder.run(*SCRIPT, "desk.db", lines=ASKED), (0, ["OK 0"] * 9, NEW))
        found += differing("its files", folder.names(), ["desk.db", "desk.db-wal"])
        found += differing("its mode", os.stat(folder.file("desk.db")).st_mode & 0o777, 0o600)
        found += differing("its rows", folder.run("trail", "desk.db"), (0, [*ROWS, GONE], []))
        found += differing("its soundness", folder.run("store", "check", "desk.db")[0], 0)
        again = ["whoami", "open ann abc", "whoami"]
        replies = ["DENIED session", "OK 0", "OK 2", "user ann", "authorized alpha"]
        found += differing("the desk that goes on", folder.run(*SCRIPT, "desk.db", lines=again), (0, replies, has(10)))
        more = [f"11,2,request,open ann {DIGEST}", "12,2,gone,"]
        return found + differing("the rows then", folder.run("trail", "desk.db"), (0, [*ROWS, GONE, *more], []))


def killed():
    """What was answered before a kill is stored, and so is the end of its connection when the desk goes on, once."""
    with Folder() as folder:
        process = folder.begin(ASKED)
        found = differing("a second process", folder.run(*SCRIPT, "desk.db")[0], 3)
        process.send_signal(signal.SIGKILL)
        process.communicate()
        for what, rows in ("the desk that goes on", 9), ("the same again", 10):
            found += differing(what, folder.run(*SCRIPT, "desk.db"), (0, [], has(rows)))
            found += differing(f"its rows, {what}", folder.run("trail", "desk.db"), (0, [*ROWS, GONE], []))
        return found


def served():
    """A service stores what its connection asks, as a script does, and each goes on from the other. No other program has the file meanwhile."""
    with Folder() as folder:
        found = []
        first, again = ["OK 0"] * 9, ["OK 0", "OK 2", "user ann", "authorized alpha", "OK 0"]
        counts = "mpw: desk.db has 10 rows and 0 finished runs\n"
        for lines, replies, told in (ASKED, first, f"{NEW[0]}\n"), (["open ann abc", "whoami", "activate alpha"], again, counts):
            service = subprocess.Popen([MPW, *SERVE, "desk.db"], cwd=folder.path, text=True, stdout=subprocess.PIPE, stderr=subprocess.PIPE)
            port = int(service.stdout.readline().rpartition(":")[2])
            found += differing("a second process", folder.run(*SCRIPT, "desk.db"), (3, [], ["error: the store: database is locked"]))
            with socket.create_connection(("127.0.0.1", port), 60) as end:
                end.sendall("".join(f"{line}\n" for line in lines).encode())
                end.shutdown(socket.SHUT_WR)
                found += differing("what a service answers", end.makefile().read().splitlines(), replies)
            found += differing("its fault", service.communicate(timeout=60)[1], told)
            found += differing("its end", service.returncode, 0)
        _, rows, _ = folder.run("trail", "desk.db")
        first, second = (rows[place].split(",")[1] for place in (1, 11))
        more = [f"11,{second},request,open ann {DIGEST}", f"12,{second},request,activate alpha", f"13,{second},gone,"]
        found += differing("the rows of two services", rows, [*rows_of(first), *more])
        found += differing("whether the second has a greater number", int(first) < int(second), True)
        return found + differing("a script that goes on", folder.run(*SCRIPT, "desk.db", lines=["open ann abc"]), (0, ["OK 0"], has(13)))


def refused(what, folder, words, name="desk.db", more=(), head=()):
    """The file is refused with status 3 and a sentence that has the words, after the lines of a head; nothing is answered, and no file but a database's
    log is another than before."""
    def sums():
        files = [file for file in folder.names() if os.path.isfile(folder.file(file)) and not file.endswith("-wal")]
        return {file: hashlib.sha256(open(folder.file(file), "rb").read()).hexdigest() for file in files}

    before = sums()
    status, printed, told = folder.run(*SCRIPT, name, *more, lines=["open root abc"])
    found = differing(what, (status, printed, told[:-1]), (3, [], list(head)))
    found += [f"{what}: told {line!r}, which has no {words!r}" for line in told[-1:] if not (line.startswith("error: the store: ") and words in line)]
    return found + differing(f"{what}: the files", sums(), before)


def other_files():
    """What is no store is refused, and stays as it is."""
    with Folder() as folder:
        with sqlite3.connect(folder.file("desk.db")) as other:
            other.execute("create table notes(text)")
        other.close()
        os.chmod(folder.file("desk.db"), 0o600)
        found = refused("another database", folder, "another database")
        os.mkdir(folder.file("below"))
        found += refused("a folder", folder, "no regular file", "below")
        found += refused("a folder that isn't there", folder, "can't be made", "nowhere/desk.db")
        return found


def conditions():
    """A store that has to exist, one that must not, and one that others may not read."""
    with Folder() as folder:
        found = refused("no store", folder, "only without --existing", more=["--existing"])
        found += differing("no file", folder.names(), [])
        open(folder.file("desk.db"), "wb").close()
        found += refused("an empty file", folder, "the file is empty", more=["--existing"])
        os.unlink(folder.file("desk.db"))
        found += differing("a new store", folder.run(*SCRIPT, "desk.db", "--new", lines=ASKED), (0, ["OK 0"] * 9, NEW))
        found += refused("a second new store", folder, "already", more=["--new"])
        found += differing("an existing store", folder.run(*SCRIPT, "desk.db", "--existing", "--private"), (0, [], has(10)))
        os.chmod(folder.file("desk.db"), 0o640)
        found += refused("a file that its group may read", folder, "chmod go-rw", more=["--private"])
        status, _, told = folder.run(*SCRIPT, "desk.db")
        found += differing("it without --private", (status, [line.split(":")[0] for line in told]), (0, ["warning", "mpw"]))
        status, _, told = folder.run(*SCRIPT, "desk.db", "--new", "--existing")
        return found + differing("both", (status, [line.split(" exclude")[0] for line in told]), (2, ["error: --existing and --new"]))


def bare_log():
    """A log whose file is missing or empty is refused by every command, and stays as it is."""
    with Folder() as folder:
        process = folder.begin(ASKED)
        process.send_signal(signal.SIGKILL)
        process.communicate()
        log = open(folder.file("desk.db-wal"), "rb").read()
        whole = open(folder.file("desk.db"), "rb").read()
        os.unlink(folder.file("desk.db"))
        found = []
        for what in "a missing file", "an empty file":
            found += refused(what, folder, "but the log next to it")
            for words in ["trail", "desk.db"], ["store", "check", "desk.db"]:
                status, printed, told = folder.run(*words)
                found += differing(f"{what}: {words[0]}", (status, printed, len(told)), (3, [], 1))
            found += differing(f"{what}: its log", open(folder.file("desk.db-wal"), "rb").read(), log)
            open(folder.file("desk.db"), "wb").close()
        with open(folder.file("desk.db"), "wb") as file:
            file.write(whole)
        return found + differing("the file again", folder.run("trail", "desk.db"), (0, ROWS, []))


def only_read():
    """A store is listed and checked without a change of its files, also if none of them may be written."""
    with Folder() as folder:
        process = folder.begin(ASKED)
        process.send_signal(signal.SIGKILL)
        process.communicate()

        def files():
            return {name: (open(folder.file(name), "rb").read(), os.stat(folder.file(name)).st_mtime_ns) for name in folder.names()}

        before = files()
        for name in folder.names():
            os.chmod(folder.file(name), 0o400)
        os.chmod(folder.path, 0o500)
        found = differing("its rows", folder.run("trail", "desk.db"), (0, ROWS, []))
        found += differing("its soundness", folder.run("store", "check", "desk.db"), (0, report(9, 12), []))
        os.chmod(folder.path, 0o700)
        return found + differing("its files", files(), before)


def two_names():
    """A file with a second name is refused, since its log would lie beside one of them."""
    with Folder() as folder:
        folder.run(*SCRIPT, "desk.db", lines=ASKED)
        os.link(folder.file("desk.db"), folder.file("second.db"))
        return refused("two names", folder, "two names") + refused("the second name", folder, "two names", "second.db")


def bad_rows():
    """A row that is no change of the desk at that point is named by its place."""
    with Folder() as folder:
        folder.run(*SCRIPT, "desk.db", lines=ASKED)
        with sqlite3.connect(folder.file("desk.db")) as store:
            store.execute("insert into changes values (11, 2, 1, 'addrole x', null)")
        store.close()
        found = refused("a bad row", folder, "row 11 is no change", head=has(11))
        another = [word.replace("root", "ann") for word in SCRIPT]
        status, printed, told = folder.run(*another, "desk.db")
        found += differing("another officer", (status, printed, told[:-1]), (3, [], has(11)))
        return found + [line for line in told[-1:] if "another officer or token" not in line]


def audited():
    """What is reported of a row with a payload, which is no change; and of rows without one."""
    with Folder() as folder:
        folder.run(*SCRIPT, "desk.db", lines=ASKED)
        found = differing("a sound store", folder.run("store", "check", "desk.db"), (0, report(10), []))
        with sqlite3.connect(folder.file("desk.db")) as store:
            store.execute("insert into changes values (11, 2, 1, 'frob', x'616263')")
        store.close()
        found += differing("its rows", folder.run("trail", "desk.db"), (0, [*ROWS, GONE, "11,2,request,frob"], []))
        found += differing("a payload", folder.run("trail", "desk.db", "--payload", "11"), (0, ["abc"], []))
        for place in "10", "12":
            told = [f"error: no row {place} has a payload"]
            found += differing(f"no payload, {place}", folder.run("trail", "--payload", place, "desk.db"), (3, [], told))
        told = ["error: the store isn't sound: row 11 is no change that the desk accepts there"]
        found += differing("a row that is none", folder.run("store", "check", "desk.db"), (4, [], told))
        for place in "0", "2097153", "011", "-1":
            told = ["error: --payload takes the number of a row, from 1 to 2097152"]
            ended = folder.run("trail", f"--payload={place}", "desk.db")
            found += differing(f"no place, {place}", ended, (2, [], told))
        return found + differing("another task", folder.run("store", "mend", "desk.db")[:2], (2, []))


def without_a_table():
    """A file in which nothing was stored yet has no table; one that is no store isn't sound."""
    with Folder() as folder:
        open(folder.file("new.db"), "wb").close()
        found = differing("its listing", folder.run("trail", "new.db"), (0, ["place,connection,kind,line"], []))
        found += differing("its soundness", folder.run("store", "check", "new.db"), (0, report(0), []))
        told = ["error: no row 1 has a payload"]
        found += differing("its payloads", folder.run("trail", "--payload", "1", "new.db"), (3, [], told))
        with sqlite3.connect(folder.file("other.db")) as other:
            other.execute("create table notes(text)")
        other.close()
        told = ["error: the store isn't sound: it is another database"]
        found += differing("another database", folder.run("store", "check", "other.db"), (4, [], told))
        found += differing("its rows", folder.run("trail", "other.db"), (3, [], ["error: the store: it is another database"]))
        for words in ["store", "check", "none.db"], ["trail", "none.db"]:
            status, printed, told = folder.run(*words)
            found += differing(f"no file: {words[0]}", (status, printed, [line[:48] for line in told]), (3, [], ["error: the store: there is no file of that name."]))
        return found + differing("no file is made", [name for name in folder.names() if name.startswith("none")], [])


CASES = {
    "a desk over a store": kept,
    "a desk over a store that is killed": killed,
    "a service over a store": served,
    "files that are no store": other_files,
    "conditions on a store's file": conditions,
    "a log without its file": bare_log,
    "a store that is only read": only_read,
    "a store with two names": two_names,
    "a store with a bad row": bad_rows,
    "a store that is audited": audited,
    "a store without a table": without_a_table,
}
