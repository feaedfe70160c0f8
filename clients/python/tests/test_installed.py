"""`./mpw install` and `./mpw uninstall`, with stand-ins for the programs: what is where, what the command does with its words, what the pages, the
completion and the unit have, and that nothing is left. scripts/try_package.py tries the programs themselves."""
import gzip
import hashlib
import os
import re
import shutil
import subprocess
import sys
import tempfile
import unittest

from stand_in import TOP

# A stand-in has a help like those of the programs, and prints its words.
PROGRAM = """#!/bin/sh
case "$*" in
    *--help)
        case $1 in script | serve) exec >&2; status=2 ;; esac
        echo "Does what $1 does

Usage: mpw $1 [OPTIONS] --deck <DECK> <FILE>

Arguments:
  <FILE>  The file

Options:
      --deck <DECK>  The file of the rules
      --limit <N>    So many
  -h, --help         Print help"
        exit ${status-0} ;;
esac
echo "${0##*/} $*"
case "$*" in *" -") cat ;; esac
"""
CRATES = "mpw_main", "mpw_firm", "mpw_auditor", "mpw_manual"
COMPLETED = """
. "$1"
compopt() { :; }
shift
COMP_WORDS=("$@") COMP_CWORD=$(($# - 1))
"_${1//-/_}" "$1" "${COMP_WORDS[COMP_CWORD]}" "${COMP_WORDS[COMP_CWORD - 1]}"
echo "${COMPREPLY[*]}"
"""


def run(*words, **more):
    """The status of a command, what it printed, and what it printed on the standard error."""
    ended = subprocess.run(words, stdin=subprocess.DEVNULL, stdout=subprocess.PIPE, stderr=subprocess.PIPE, timeout=60, **more)
    return ended.returncode, ended.stdout.decode(), ended.stderr.decode()


class Installed(unittest.TestCase):
    @classmethod
    def setUpClass(cls):
        cls.folder = tempfile.mkdtemp(prefix="mpw-installed-")
        cls.addClassCleanup(shutil.rmtree, cls.folder)
        cls.programs = os.path.join(cls.folder, "programs")
        os.mkdir(cls.programs)
        for name in CRATES:
            with open(os.path.join(cls.programs, name), "w", encoding="ascii") as file:
                file.write(PROGRAM)
            os.chmod(file.name, 0o755)
        cls.prefix = os.path.join(cls.folder, "prefix")
        cls.told = cls.mpw("install", "--prefix", cls.prefix)

    @classmethod
    def mpw(cls, *words, **more):
        return run(os.path.join(TOP, "mpw"), *words, env={**os.environ, "MPW_PROGRAMS": cls.programs, **more})

    def file(self, *names):
        return os.path.join(self.prefix, *names)

    def read(self, *names):
        with open(self.file(*names), encoding="utf-8") as file:
            return file.read()

    def paths(self, below=None):
        """All files below a folder."""
        return sorted(os.path.join(at, name) for at, _, names in os.walk(below or self.prefix) for name in names)


class Command(Installed):
    def test_dispatch(self):
        self.assertEqual(self.told[::2], (0, ""))
        mpw = self.file("bin", "mpw")
        for word, program in ("serve", "serve"), ("script", "script"), ("check", "check"), ("stitch", "stitch"), ("trail", "trail"), ("store", "store"):
            self.assertEqual(run(mpw, word, "a b", "--x"), (0, f"mpw-{program} {word} a b --x\n", ""))
        self.assertEqual(run(mpw, "help", "submit"), (0, "mpw-help submit\n", ""))
        for words, status in (["foo"], 2), (["../mpw/mpw-serve"], 2), (["-x"], 2), ([], 2), (["--help"], 0), (["help", "--help"], 0):
            self.assertEqual(run(mpw, *words)[0], status, words)

    def test_pipes(self):
        """A check gets a library that zcat unpacks, and ends by its own status; under pipefail a damaged file isn't clean."""
        text = bytes(range(256)) * 4096
        packed, cut = os.path.join(self.folder, "a b.gds.gz"), os.path.join(self.folder, "cut.gds.gz")
        for path, data in (packed, gzip.compress(text)), (cut, gzip.compress(text)[:-8]):
            with open(path, "wb") as file:
                file.write(data)
        line = 'set -o pipefail; zcat "$2" | "$1" check --deck d --top T -'
        for path, status in (packed, 0), (cut, 1):
            ended = subprocess.run(["bash", "-c", line, "bash", self.file("bin", "mpw"), path], stdout=subprocess.PIPE, stderr=subprocess.PIPE, timeout=60)
            self.assertEqual((ended.returncode, ended.stdout), (status, b"mpw-check check --deck d --top T -\n" + text), ended.stderr)

    def test_other_ways(self):
        """A link, a folder that is a link, and a search in PATH lead to the same programs."""
        link, folder = os.path.join(self.folder, "link"), os.path.join(self.folder, "folder")
        os.symlink(self.file("bin", "mpw"), link)
        os.symlink(self.file("bin"), folder)
        for words in [link], [os.path.join(folder, "mpw")], ["env", f"PATH={folder}:{os.environ['PATH']}", "mpw"]:
            self.assertEqual(run(*words, "check", cwd="/"), (0, "mpw-check check\n", ""))

    def test_lost_client(self):
        """Without the client's files no check runs, and the status isn't that of markers."""
        with tempfile.TemporaryDirectory() as folder:
            shutil.copytree(self.prefix, os.path.join(folder, "prefix"), symlinks=True)
            os.remove(os.path.join(folder, "prefix", "share", "mpw", "python", "mpw_checking.sh"))
            self.assertEqual(run(os.path.join(folder, "prefix", "bin", "mpw"), "check")[:2], (70, ""))

    def test_version(self):
        status, printed, _ = run(self.file("bin", "mpw"), "--version")
        lines = printed.splitlines()
        with open(os.path.join(TOP, "VERSION"), encoding="ascii") as file:
            self.assertEqual((status, lines[0]), (0, f"mpw {file.read().strip()}"))
        self.assertEqual([line.split(" ")[0] for line in lines], ["mpw", "commit", "toolchain", "programs"])
        self.assertEqual(lines[3], "programs unproved, for tests alone")
        self.assertEqual(self.mpw("--version")[1].splitlines(), lines[:3])

    def test_tools(self):
        """The tools run, and find the command that is installed with them."""
        for name in "mpw-ask", "mpw-page", "mpw-assemble", "mpw-report", "mpw-backup":
            self.assertEqual(run(self.file("bin", name), "--help")[0], 0)
        words = [sys.executable, "-SB", "-c", "import mpw_program; print(mpw_program.program())"]
        self.assertEqual(run(*words, cwd=self.file("share", "mpw", "python"))[1].strip(), os.path.realpath(self.file("bin", "mpw")))

    def test_page_of_a_check(self):
        """--page goes to mpw-page, which runs the check without it."""
        status, printed, _ = run(self.file("bin", "mpw"), "check", "--page", "p.html", "f.gds", cwd=self.folder)
        self.assertEqual((status, printed), (2, "mpw-check check f.gds\n"))


class Files(Installed):
    def test_manual_pages(self):
        for name, words in ("man1/mpw.1", ["mpw script", "--limit", "whoami", "DENIED ssd"]), ("man1/mpw-check.1", ["deck", "--page", "--known"]), (
                "man8/mpw-serve.8", [f"{self.prefix}/etc/mpw/mpw.conf"]), ("man1/mpw-ask.1", ["token", "log"]):
            with gzip.open(self.file("share", "man", f"{name}.gz"), "rt", encoding="ascii") as file:
                text = file.read()
            self.assertEqual([word for word in words if word.replace("-", "\\-") not in text], [])
            if shutil.which("man"):
                shown = run("man", "--warnings", "-l", self.file("share", "man", f"{name}.gz"), env={**os.environ, "MANWIDTH": "100", "LC_ALL": "C.UTF-8"})
                self.assertEqual((shown[0], shown[2]), (0, ""), name)

    def test_completion_of_bash(self):
        path = self.file("share", "bash-completion", "completions", "mpw")
        for words, expected in (["mpw", "st"], "stitch store"), (["mpw", "check", "--d"], "--deck"), (["mpw", "check", "--k"], "--known"), (["mpw", "check", "--limit", ""], ""), (
                ["mpw", "help", "waiv"], "waive waivers"), (["mpw", "store", ""], "check"), (["mpw-ask", "--rep"], "--report"), (
                ["mpw-ask", "h:1", "unp"], "unplace"), (["mpw-report", "--j"], "--junit --json"):
            self.assertEqual(run("bash", "-c", COMPLETED, "bash", path, *words), (0, expected + "\n", ""), words)

    @unittest.skipUnless(shutil.which("zsh"), "zsh isn't installed")
    def test_completion_of_zsh(self):
        self.assertEqual(run("zsh", "-n", self.file("share", "zsh", "site-functions", "_mpw")), (0, "", ""))

    @unittest.skipUnless(shutil.which("systemd-analyze"), "systemd-analyze isn't installed")
    def test_unit(self):
        unit = self.file("lib", "systemd", "system", "mpw.service")
        self.assertEqual(run("systemd-analyze", "verify", "--man=no", unit)[::2], (0, ""))
        status, printed, _ = run("systemd-analyze", "security", "--offline=true", "--threshold=30", unit)
        self.assertEqual(status, 0, printed)
        text = self.read("lib", "systemd", "system", "mpw.service")
        for line in "User=mpw", "UMask=0077", "StateDirectory=mpw", "LimitAS=16G", "Restart=always", f"EnvironmentFile={self.prefix}/etc/mpw/mpw.conf":
            self.assertIn(f"\n{line}\n", text)
        self.assertIn(f"\nExecStart=@{self.prefix}/libexec/mpw/mpw-serve mpw serve ", text)

    @unittest.skipUnless(shutil.which("systemd-analyze"), "systemd-analyze isn't installed")
    def test_unit_of_copies(self):
        units = [self.file("lib", "systemd", "system", f"mpw-backup.{kind}") for kind in ("service", "timer")]
        self.assertEqual(run("systemd-analyze", "verify", "--man=no", *units)[::2], (0, ""))
        status, printed, _ = run("systemd-analyze", "security", "--offline=true", "--threshold=30", units[0])
        self.assertEqual(status, 0, printed)
        self.assertIn(f"\nExecStart={self.prefix}/bin/mpw-backup --newest ", self.read("lib", "systemd", "system", "mpw-backup.service"))

    def test_variables(self):
        """The configuration has each variable that the units name."""
        conf = self.read("etc", "mpw", "mpw.conf")
        unit = "".join(self.read("lib", "systemd", "system", f"{name}.service") for name in ("mpw", "mpw-backup"))
        set_there = set(re.findall(r"^(MPW_\w+)=", conf, re.M)) | set(re.findall(r'^Environment="(MPW_\w+)=', unit, re.M))
        self.assertEqual(set(re.findall(r"\$\{?(MPW_\w+)", unit)), set_there)

    @unittest.skipUnless(shutil.which("systemd-sysusers") and shutil.which("systemd-tmpfiles") and os.geteuid() == 0, "only root tries the user and folders")
    def test_user_and_folders(self):
        with tempfile.TemporaryDirectory() as root:
            os.mkdir(os.path.join(root, "etc"))
            for tool, words in ("sysusers", []), ("tmpfiles", ["--create"]):
                status, _, told = run(f"systemd-{tool}", f"--root={root}", *words, self.file("lib", f"{tool}.d", "mpw.conf"))
                self.assertEqual(status, 0, told)
            with open(os.path.join(root, "etc", "passwd"), encoding="ascii") as file:
                self.assertRegex(file.read(), "(?m)^mpw:.*:/var/lib/mpw:/usr/sbin/nologin$")
            for folder in "lib", "backups":
                self.assertEqual(os.stat(os.path.join(root, "var", folder, "mpw")).st_mode & 0o777, 0o700)

    @unittest.skipUnless(shutil.which("logrotate") and os.geteuid() == 0, "logrotate isn't installed, or the user isn't root")
    def test_rotation(self):
        """The log is moved away, and a new one is made with its mode, which the service opens. The one before isn't compressed yet."""
        with tempfile.TemporaryDirectory() as folder:
            log, conf = os.path.join(folder, "desk.log"), os.path.join(folder, "conf")
            text = self.read("etc", "logrotate.d", "mpw")
            with open(conf, "w", encoding="ascii") as file:
                file.write(text.replace("/var/log/mpw/desk.log", log).replace("su mpw mpw", "su root root"))
            for number in 1, 2:
                with open(log, "a", encoding="ascii") as file:
                    os.chmod(log, 0o600)
                    print(number, file=file, flush=True)
                    status, _, told = run("logrotate", "--force", "--state", os.path.join(folder, "state"), conf)
                    self.assertEqual((status, os.path.getsize(log), os.stat(log).st_mode & 0o777), (0, 0, 0o600), told)
                    self.assertFalse(os.path.samestat(os.stat(log), os.fstat(file.fileno())))
            self.assertEqual(sorted(os.listdir(folder)), ["conf", "desk.log", "desk.log.1", "desk.log.2.gz", "state"])

    def test_documents(self):
        """Links of the installed pages to pages and pictures lead somewhere, but for those to sources."""
        folder = self.file("share", "doc", "mpw")
        self.assertTrue(os.path.isfile(os.path.join(folder, "examples", "two-bars.gds")))
        for name in "README.md", "docs/install.md", "docs/tutorial-firm.md", "docs/tutorial-shuttle.md":
            text = self.read("share", "doc", "mpw", *name.split("/"))
            linked = [os.path.normpath(os.path.join(folder, os.path.dirname(name), it)) for it in re.findall(r"\]\(([^)#:]+\.(?:md|png))", text)]
            self.assertEqual([it for it in linked if not os.path.exists(it)], [], name)


class Places(Installed):
    def test_nothing_left(self):
        """With DESTDIR all goes below it, also the configuration; and nothing is left after it is removed, but a file that was edited."""
        with tempfile.TemporaryDirectory() as root:
            below = os.path.join(root, "root")
            self.assertEqual(self.mpw("install", DESTDIR=below)[0], 0)
            self.assertTrue({"usr/local/bin/mpw", "etc/mpw/mpw.conf", "etc/logrotate.d/mpw"} <= {os.path.relpath(path, below) for path in self.paths(below)})
            self.assertEqual(os.listdir(root), ["root"])
            run(os.path.join(below, "usr/local/bin/mpw-ask"), "--help")
            self.assertEqual(self.mpw("uninstall", DESTDIR=below), (0, "mpw is removed from /usr/local\n", ""))
            self.assertEqual(os.listdir(below), [])
            self.assertEqual(self.mpw("uninstall", DESTDIR=below)[0], 1)

    def test_edited(self):
        """An edited configuration stays when another version is installed and when it is removed, and a file that no version has any more goes."""
        with tempfile.TemporaryDirectory() as prefix:
            conf, old = os.path.join(prefix, "etc/mpw/mpw.conf"), os.path.join(prefix, "share/mpw/old")
            self.mpw("install", "--prefix", prefix)
            with open(conf, "a", encoding="ascii") as file:
                file.write("# edited\n")
            with open(old, "w", encoding="ascii") as file, open(os.path.join(prefix, "share/mpw/installed"), "a", encoding="ascii") as listed:
                listed.write(f"{hashlib.sha256(b'').hexdigest()} {old}\n")
            for _ in range(2):
                status, _, told = self.mpw("install", "--prefix", prefix)
                self.assertEqual((status, told), (0, f"mpw: {conf} was edited, so it stays; the new one is {conf}.new\n"))
            self.assertFalse(os.path.exists(old))
            with open(conf, encoding="ascii") as file:
                self.assertTrue(file.read().endswith("# edited\n"))
            self.assertEqual(self.mpw("uninstall", "--prefix", prefix)[2], f"mpw: {conf} was edited, so it stays\n")
            self.assertEqual(self.paths(prefix), [conf])

    def test_that_cannot_be(self):
        status, _, told = self.mpw("install", "--prefix", "/proc/none")
        self.assertEqual((status, "mpw: /proc/none" in told), (1, True), told)
        self.assertEqual(self.mpw("install", "--nothing")[0], 2)

    def test_unbuilt(self):
        """Without the toolchain nothing is built, and nothing is installed unless all is built."""
        with tempfile.TemporaryDirectory() as folder:
            for name in "scripts", "packaging":
                shutil.copytree(os.path.join(TOP, name), os.path.join(folder, name))
            shutil.copy(os.path.join(TOP, "mpw"), folder)
            os.makedirs(os.path.join(folder, "crates", "mpw_main", "src"))
            with open(os.path.join(folder, "crates", "mpw_main", "src", "main.rt"), "w", encoding="ascii"):
                pass
            environment = {**os.environ, "PATH": "/usr/bin:/bin", "MPW_PROGRAMS": ""}
            status, printed, told = run(os.path.join(folder, "mpw"), "install", "--prefix", os.path.join(folder, "prefix"), env=environment)
            self.assertEqual((status, printed, "first run ./mpw build" in told), (70, "", True), told)
            self.assertFalse(os.path.exists(os.path.join(folder, "prefix")))


if __name__ == "__main__":
    unittest.main()
