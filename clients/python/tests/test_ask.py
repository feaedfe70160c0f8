"""mpw-ask: what it prints, its exit status, the files that it sends and writes, and where a token may be."""
import os
import pty
import shutil
import subprocess
import sys
import tempfile
import time
import unittest
import xml.etree.ElementTree as ElementTree

import layouts
from asked import PROGRAM, ask, environment
from mpw_desk import BadTokenFile, read_token
from stand_in import OFFICER, TOKEN, StandIn, listening, saying

HERE = os.path.dirname(os.path.abspath(__file__))
WHOAMI = "OK 3\nuser root\nactive officer\nauthorized officer\n"
PIPED = f"{sys.executable} -SB {os.path.join(HERE, 'piped.py')}"


class WithFiles(unittest.TestCase):
    """A folder with a library, a deck and a token."""

    def setUp(self):
        self.folder = tempfile.mkdtemp()
        self.addCleanup(shutil.rmtree, self.folder)
        deck = b"tile 256\nwidth w 1/0 11\n"
        for name, data in ("pad.gds", layouts.pad()), ("rules.deck", deck), ("root.token", b"abc\n"):
            with open(self.file(name), "wb") as file:
                file.write(data)
        os.chmod(self.file("root.token"), 0o600)

    def file(self, name):
        return os.path.join(self.folder, name)

    def read(self, name):
        with open(self.file(name), encoding="ascii") as file:
            return file.read()


class WithDesk(WithFiles):
    """A desk, whose officer asks."""

    def setUp(self):
        super().setUp()
        listener = listening(StandIn().serve)
        self.address = f"127.0.0.1:{listener.__enter__()}"
        self.addCleanup(listener.__exit__, None, None, None)

    def ask(self, *words, **more):
        return ask(self.address, "--user", OFFICER, "--role", "officer", *words, **more)

    def grant_all(self):
        lines = [f"grant {operation} pad officer" for operation in ("submit", "read", "place")]
        lines += [f"grant {operation} desk officer" for operation in ("deck", "run", "waive", "verdict", "audit")]
        self.assertEqual(self.ask(*lines), (0, "OK 0\n" * len(lines), ""))


class AtADesk(WithDesk):
    def test_replies_as_they_came(self):
        self.assertEqual(self.ask("whoami", "cells"), (0, f"{WHOAMI}OK 0\n", ""))

    def test_one_that_is_not_accepted(self):
        told = "mpw-ask: deluser bob: REFUSED 32 unknown\nmpw-ask: shapes pad: DENIED permission read pad\n"
        printed = "REFUSED 32 unknown\nDENIED permission read pad\nOK 0\n"
        self.assertEqual(self.ask("deluser bob", "shapes pad", "cells"), (1, printed, told))
        self.assertEqual(self.ask("whoami", token="abd"), (1, "", "mpw-ask: open root: DENIED login\n"))
        self.assertEqual(ask(self.address, "whoami"), (1, "DENIED session\n", "mpw-ask: whoami: DENIED session\n"))
        status, printed, told = self.ask("--role", "nobody", "whoami")
        self.assertEqual((status, printed), (1, ""))
        self.assertEqual(told, "mpw-ask: activate nobody: DENIED permission activate nobody\n")

    def test_standard_input(self):
        given = "whoami\n\n# a comment\nshapes  pad\ncells"
        status, printed, told = self.ask(given=given)
        self.assertEqual(printed, f"{WHOAMI}REFUSED 40 form\nOK 0\n")
        self.assertEqual((status, told), (1, "mpw-ask: line 4: shapes  pad: REFUSED 40 form\n"))
        status, printed, told = self.ask(given="cells\nsubmit pad PAD 12\ncells\n")
        self.assertEqual((status, printed), (2, "OK 0\n"))
        self.assertIn("line 2", told)
        self.assertEqual(self.ask(given="cells\n" + "x" * 5000 + "\ncells\n")[:2], (2, "OK 0\n"))
        self.assertEqual(self.ask(given="caf\u00e9\n")[:2], (1, "REFUSED 40 form\n"))

    def test_files_are_sent(self):
        self.grant_all()
        lines = ["submit pad PAD @pad.gds", "deck @rules.deck", "place pad p R0 0 0", "run", "status", "markers"]
        status, printed, told = self.ask("--wait", *lines, cwd=self.folder)
        self.assertEqual((status, told), (0, ""))
        replies = ["version 1", "", "version 1", "run 1", "finished 1", "w:V:0:0:10:0:100 pad"]
        self.assertEqual(printed, "".join(f"OK 1\n{line}\n" if line else "OK 0\n" for line in replies))
        status, printed, told = self.ask(f"submit pad PAD @{self.file('rules.deck')}")
        self.assertEqual((status, printed), (1, "REFUSED 2 badlength 0\n"))
        self.assertIn("submit pad PAD @", told)
        self.assertEqual(self.ask("submit pa\td PAD @pad.gds", cwd=self.folder)[:2], (2, ""))
        status, printed, told = self.ask("cells", "submit pad PAD @none.gds", "cells")
        self.assertEqual((status, printed), (4, "OK 1\npad 1 root\n"))
        self.assertIn("none.gds", told)

    def test_tokens(self):
        line = f"adduser bob @{self.file('root.token')}"
        self.assertEqual(self.ask(line, token=None, given="")[0], 2)
        token = "--token-file", self.file("root.token")
        self.assertEqual(self.ask(*token, line, token=None), (0, "OK 0\n", ""))
        line = f"open bob @{self.file('root.token')}"
        self.assertEqual(ask(self.address, line, "whoami")[:2], (0, "OK 0\nOK 1\nuser bob\n"))
        for line in "open root abc", "adduser eve abc":
            status, printed, told = ask(self.address, line)
            self.assertEqual((status, printed), (2, ""))
            self.assertNotIn("abc", told)
        status, printed, told = ask(self.address, given="open root secret\nopen root abc\nadduser bob secret\n")
        self.assertEqual((status, printed), (1, "DENIED login\nOK 0\nDENIED permission admin desk\n"))
        self.assertNotIn("secret", told)
        self.assertEqual(self.ask(*token, "--token-file", self.file("none"), "cells")[0], 4)

    @unittest.skipUnless(os.name == "posix", "files have no such permissions here")
    def test_token_files_of_others(self):
        """A token file that others may use is refused, wherever it is named."""
        path = self.file("root.token")
        for mode in 0o640, 0o604, 0o620, 0o601:
            os.chmod(path, mode)
            fault = f"others may read this token file (its mode is {mode:04o}), so it isn't used: run chmod 600 {path}\n"
            self.assertEqual(self.ask("--token-file", path, "cells", token=None), (4, "", f"mpw-ask: {path}: {fault}"))
            for line in f"adduser bob @{path}", f"open root @{path}":
                self.assertEqual(self.ask(line), (4, "", f"mpw-ask: {path}: {fault}"))
            with self.assertRaisesRegex(BadTokenFile, "chmod 600"):
                read_token(path)
        for mode in 0o600, 0o400:
            os.chmod(path, mode)
            self.assertEqual(self.ask("--token-file", path, "cells", token=None), (0, "OK 0\n", ""))
        words = f"{' '.join(PROGRAM)} {self.address} --user root --token-file <(echo abc) whoami"
        ended = subprocess.run(["bash", "-c", words], stdout=subprocess.PIPE, stderr=subprocess.PIPE, env=environment())
        self.assertEqual((ended.returncode, ended.stderr), (0, b""))

    @unittest.skipUnless(os.name == "posix" and os.geteuid() == 0, "only root may give a file away")
    def test_token_files_of_another_owner(self):
        """As for ssh, its owner decides who may read it."""
        os.chmod(self.file("root.token"), 0o644)
        os.chown(self.file("root.token"), 65534, -1)
        self.assertEqual(read_token(self.file("root.token")), "abc")

    def test_report(self):
        self.grant_all()
        self.ask("submit pad PAD @pad.gds", "deck @rules.deck", "place pad p R0 0 0", cwd=self.folder)
        words = "--report", self.file("out.lyrdb"), "--deck", self.file("rules.deck")
        told = f"mpw-ask: --report {self.file('out.lyrdb')}: REFUSED 43 notfinished\n"
        self.assertEqual(self.ask(*words), (1, "", told))
        self.assertFalse(os.path.exists(self.file("out.lyrdb")))
        self.assertEqual(self.ask("run", "waive w:V:0:0:10:0:100", *words), (0, "OK 1\nrun 1\nOK 0\n", ""))
        report = ElementTree.parse(self.file("out.lyrdb"))
        self.assertEqual(report.find("categories/category/description").text, "width w 1/0 11")
        self.assertEqual(report.find("items/item/tags").text, "'asked by root'")
        self.assertEqual(report.find("items/item/values/value").text, "edge-pair: (0,0;0,0.1)|(0.01,0.1;0.01,0)")
        self.assertEqual(self.ask("--report", self.file("none/out"))[0], 4)
        self.assertEqual(self.ask("--report", "-")[0], 2)

    def test_page(self):
        self.grant_all()
        lines = ["submit pad PAD @pad.gds", "deck @rules.deck", "place pad p R0 0 0", "place pad q R90 5000 0"]
        lines += ["unplace pad q", "run"]
        self.assertEqual(self.ask(*lines, "--page", "out.html", cwd=self.folder)[0], 0)
        self.assertIn('"placements":["pad p R0 0 0"]', self.read("out.html"))
        with open(self.file("placed.txt"), "w", encoding="ascii") as file:
            file.write("# of the shuttle\nplace pad a R0 0 0\nplace pad b M90 7 -8\n")
            file.write("place other c R0 0 0\nunplace pad a\n")
        self.assertEqual(self.ask("--placements", "placed.txt", "--page", "out.html", cwd=self.folder)[0], 0)
        self.assertIn('"placements":["pad b M90 7 -8","other c R0 0 0"]', self.read("out.html"))
        with open(self.file("placed.txt"), "w", encoding="ascii") as file:
            file.write("place pad a R0 0\n")
        self.assertEqual(self.ask("--placements", "placed.txt", "--page", "out.html", cwd=self.folder)[0], 2)

    def test_terminal(self):
        """A prompt stands on a terminal alone, and a line that isn't one doesn't end the conversation there."""
        ours, its = pty.openpty()
        words = [*PROGRAM, self.address, "--user", OFFICER]
        pipe = subprocess.PIPE
        process = subprocess.Popen(words, stdin=its, stdout=pipe, stderr=pipe, env=environment(TOKEN))
        os.write(ours, b"deck 12\nwhoami\nactivate x\n\x04")
        printed, told = process.communicate(timeout=30)
        os.close(ours)
        os.close(its)
        self.assertEqual(printed.decode(), "OK 2\nuser root\nauthorized officer\nDENIED permission activate x\n")
        self.assertEqual(told.decode().count("mpw> "), 4)
        self.assertIn("mpw-ask: deck 12: name the file", told.decode())
        self.assertIn("mpw-ask: line 3: activate x: DENIED", told.decode())
        self.assertEqual(process.returncode, 1)


class Statuses(WithFiles):
    def test_usage(self):
        for text in (
                "", "desk", "desk:x", "desk:70000", "desk:1 --nothing", "desk:1 submit", "desk:1 deck~12",
                "desk:1 --role x cells", "desk:1 cells --limit x", "desk:1 --us x cells"):
            words = [word.replace("~", " ") for word in text.split()]
            status, printed, told = ask(*words)
            self.assertEqual((status, printed), (2, ""), words)
            self.assertTrue(told, words)

    def test_line_feed(self):
        with listening(StandIn().serve) as port:
            self.assertEqual(ask(f"127.0.0.1:{port}", "cells\nclose")[:2], (2, ""))

    def test_help(self):
        status, printed, told = ask("--help")
        self.assertEqual((status, told), (0, ""))
        for word in "MPW_TOKEN", "--token-file", "@pad.gds", "--wait", "--report", "--page", "exit status":
            self.assertIn(word, printed)

    def test_no_connection(self):
        with listening(saying()) as port:
            pass
        self.assertEqual(ask(f"127.0.0.1:{port}", "cells")[:2], (3, ""))
        for text in b"hello\n", b"OK 1\npad":
            with listening(saying(b"OK 0\n", text)) as port:
                status, printed, told = ask(f"127.0.0.1:{port}", "close", "cells")
            self.assertEqual((status, printed), (3, "OK 0\n"))
            self.assertIn("mpw-ask: ", told)
        with listening(saying(b"", then=lambda end: end.recv(1))) as port:
            self.assertEqual(ask(f"127.0.0.1:{port}", "--limit", ".3", "cells")[:2], (3, ""))

    def test_wait(self):
        told = [b"OK 1\nrun 2\n", b"OK 1\ncutting 2\n", b"OK 1\nchecking 2 1 4\n", b"OK 1\nfinished 2\n", b"OK 0\n"]
        with listening(saying(*told)) as port:
            words = f"127.0.0.1:{port}", "--wait", "--poll", ".01", "run", "markers"
            self.assertEqual(ask(*words), (0, "OK 1\nrun 2\nOK 0\n", ""))
        with listening(saying(*[b"OK 1\ncutting 2\n"] * 1000)) as port:
            status, printed, told = ask(f"127.0.0.1:{port}", "--wait", "--wait-limit", ".1", "--poll", ".01", "status")
            self.assertEqual((status, printed), (1, "OK 1\ncutting 2\n"))
            self.assertIn("isn't finished", told)

    def test_closed_output(self):
        with listening(StandIn().serve) as port:
            words = f"{' '.join(PROGRAM)} 127.0.0.1:{port} whoami whoami whoami | true; echo ${{PIPESTATUS[0]}}"
            pipe = subprocess.PIPE
            ended = subprocess.run(["bash", "-c", words], stdout=pipe, stderr=pipe, env=environment())
        self.assertIn(ended.stdout, (b"1\n", b"4\n"))
        self.assertNotIn(b"Traceback", ended.stderr)


class Tokens(WithFiles):
    @unittest.skipUnless(os.path.exists("/proc/self/cmdline"), "there is no /proc")
    def test_never_on_a_command_line(self):
        """While it waits, neither its own command line nor what the program that it started was given has the token."""
        silent = f"{sys.executable} -c 'import time; time.sleep(30)'"
        command = [*PROGRAM, "--user", OFFICER, "--script", silent, "cells"]
        process = subprocess.Popen(command, env=environment("secret-token"), stderr=subprocess.DEVNULL)
        try:
            seen = b""
            end = time.monotonic() + 20
            while b"--digest" not in seen and time.monotonic() < end:
                seen = b"".join(self.words_and_environment(pid) for pid in children(process.pid))
                time.sleep(.05)
            self.assertIn(b"--digest", seen)
            self.assertNotIn(b"secret-token", seen)
            with open(f"/proc/{process.pid}/cmdline", "rb") as file:
                self.assertNotIn(b"secret-token", file.read())
        finally:
            for pid in [*children(process.pid), process.pid]:
                os.kill(pid, 9)
            process.wait()

    def words_and_environment(self, pid):
        found = b""
        for name in "cmdline", "environ":
            try:
                with open(f"/proc/{pid}/{name}", "rb") as file:
                    found += file.read()
            except OSError:
                pass
        return found


def children(pid):
    """The processes that a process started."""
    with open(f"/proc/{pid}/task/{pid}/children", encoding="ascii") as file:
        return list(map(int, file.read().split()))


class Script(WithFiles):
    def test_a_trial(self):
        lines = ["activate officer", "grant submit pad officer", "submit pad PAD @pad.gds"]
        for more in (), ("--user", "eve"):
            found = ask("--script", PIPED, *more, *lines, token=None, cwd=self.folder)
            self.assertEqual(found, (0, "OK 0\nOK 0\nOK 1\nversion 1\n", ""))
        status, printed, told = ask("--script", "/no/such/program", "cells")
        self.assertEqual((status, printed), (3, ""))


if __name__ == "__main__":
    unittest.main()
