#!/usr/bin/env python3
"""Runs the commands of the pages in their order, and compares what they print with what the pages show.

  examples/pages.py [PAGE ..]                 writes what the commands print into the pages
  examples/pages.py --check [PAGE ..]         compares, and prints what differs
  examples/pages.py --in FOLDER PAGE          the same as --check in this new folder, whose files stay

Without a PAGE it takes those of PAGES. A command is a line `$ ..` of a fenced block whose language is console. A backslash at
its end joins the next line to it. The lines below it, up to the next command, are its output and its errors.

Each page has a bash and a new folder of its own, with links to mpw, clients and examples. After a command that ends with `&` the script
waits until its output is there; at the end of the page it ends what still runs. Two parts of an output may differ: a number of ms, s or MB,
and the port in 127.0.0.1:7001, for which the script takes a free one. The exit status is 0 if nothing differs.
"""
import difflib
import os
import re
import select
import signal
import socket
import subprocess
import sys
import tempfile
import time

HERE = os.path.dirname(os.path.abspath(__file__))
TOP = os.path.dirname(HERE)
PAGES = (
    "README.md", "docs/checking.md", "docs/ci.md", "docs/install.md", "docs/klayout.md", "docs/operating.md", "docs/tutorial-firm.md", "docs/tutorial-shuttle.md",
)
LINKS = ("mpw", "clients", "examples")
ADDRESS = "127.0.0.1:7001"
MEASURED = re.compile(r"\d+(?:\.\d+)?(?= (?:ms|s|MB)\b)")
# What bash says of a service that was ended; an interactive one says it in other words.
ENDED = re.compile(r"bash: line \d+: +\d+ Terminated")
# For one command. If a program isn't built, the first command that needs it compiles an unproved one.
MOST_SECONDS = 1800
# Stands on both sides of a command's exit status, after its output.
MARK = "\x1e"


class Command:
    """A command of a page, with its lines there, and the lines of its output that the page shows."""

    def __init__(self, first):
        self.first, self.lines, self.shown = first, [], []

    @property
    def text(self):
        return "\n".join(self.lines)[2:]

    @property
    def is_service(self):
        return self.text.endswith("&") and not self.text.endswith("&&")


def commands_of(text):
    """The commands of a page's text."""
    found, is_inside = [], False
    for number, line in enumerate(text.split("\n")):
        if line.startswith("```"):
            is_inside = line == "```console"
        elif is_inside and line.startswith("$ "):
            found.append(Command(number))
            found[-1].lines.append(line)
        elif is_inside and found:
            last = found[-1]
            (last.shown if last.shown or not last.lines[-1].endswith("\\") else last.lines).append(line)
    return found


def free_port():
    with socket.socket() as end:
        end.bind(("127.0.0.1", 0))
        return end.getsockname()[1]


class Shell:
    """A bash in a folder, with all that it started."""

    def __init__(self, folder):
        self.address, self.rest = f"127.0.0.1:{free_port()}", b""
        environment = {word: value for word, value in os.environ.items() if word not in ("MPW_TOKEN", "BASH_ENV", "ENV")}
        self.process = subprocess.Popen(
            ["bash", "--noprofile", "--norc"], cwd=folder, stdin=subprocess.PIPE, stdout=subprocess.PIPE, stderr=subprocess.STDOUT,
            start_new_session=True, env={**environment, "LC_ALL": "C", "PYTHONDONTWRITEBYTECODE": "1"})

    def __enter__(self):
        return self

    def __exit__(self, *_):
        for number in signal.SIGTERM, signal.SIGKILL:
            try:
                os.killpg(self.process.pid, number)
                self.process.wait(20)
                time.sleep(0.2)
            except (ProcessLookupError, subprocess.TimeoutExpired):
                pass
        self.process.stdin.close()
        self.process.stdout.close()

    def read(self, is_enough, seconds):
        """Reads until there is enough."""
        end = time.monotonic() + seconds
        while not is_enough(self.rest):
            if not select.select([self.process.stdout], [], [], max(0.0, end - time.monotonic()))[0]:
                return False
            data = os.read(self.process.stdout.fileno(), 1 << 16)
            if not data:
                return False
            self.rest += data
        return True

    def run(self, command):
        """The lines that a command prints."""
        text = command.text.replace(ADDRESS, self.address)
        after = f"__status=$?; printf '{MARK}%s{MARK}' \"$__status\"; (exit \"$__status\")\n"
        self.process.stdin.write(f"{{ {text}\n}} < /dev/null\n{after}".encode())
        self.process.stdin.flush()
        if not self.read(lambda data: data.count(MARK.encode()) > 1, MOST_SECONDS):
            return [f"(no end after {MOST_SECONDS} s, or the shell ended)"]
        before, _, rest = self.rest.split(MARK.encode(), 2)
        self.rest = before + rest
        if command.is_service:
            self.read(lambda data: data.count(b"\n") >= len(command.shown), 60)
        found, self.rest = self.rest.decode(errors="replace").replace(self.address, ADDRESS).splitlines(), b""
        return [line for line in found if not ENDED.match(line)]


def is_same(shown, found):
    """Whether two outputs are the same but for what is measured."""
    return [MEASURED.sub("0", line) for line in shown] == [MEASURED.sub("0", line) for line in found]


def run_page(page, folder):
    """The commands of a page, each with the lines that it printed in this folder."""
    for name in LINKS:
        os.symlink(f"{TOP}/{name}", f"{folder}/{name}")
    with open(f"{TOP}/{page}", encoding="utf-8") as file:
        commands = commands_of(file.read())
    with Shell(folder) as shell:
        return [(command, shell.run(command)) for command in commands]


def differing(page, folder=None):
    """What differs on a page, as lines."""
    if folder is None:
        with tempfile.TemporaryDirectory(prefix="mpw-page-") as made:
            return differing(page, made)
    ran = run_page(page, folder)
    lines = [] if ran else ["the page has no command"]
    for command, found in ran:
        if not is_same(command.shown, found):
            lines.append(f"{page}:{command.first + 1}: {command.text}")
            lines += list(difflib.unified_diff(command.shown, found, "the page", "printed", lineterm=""))
    return lines


def write(page):
    """Writes what the commands of a page print into it."""
    with tempfile.TemporaryDirectory(prefix="mpw-page-") as folder:
        ran = run_page(page, folder)
    with open(f"{TOP}/{page}", encoding="utf-8") as file:
        lines = file.read().split("\n")
    for command, found in reversed(ran):
        if not is_same(command.shown, found):
            begin = command.first + len(command.lines)
            lines[begin:begin + len(command.shown)] = found
    with open(f"{TOP}/{page}", "w", encoding="utf-8") as file:
        file.write("\n".join(lines))


CASES = {f"the commands of {page}": lambda page=page: differing(page) for page in PAGES}


def main(words):
    is_check, folder = False, None
    if words[:1] == ["--check"]:
        is_check, words = True, words[1:]
    elif words[:1] == ["--in"] and len(words) == 3:
        is_check, folder, words = True, words[1], words[2:]
        os.makedirs(folder)
    if any(word.startswith("-") for word in words):
        print(__doc__, file=sys.stderr)
        return 2
    # So that a signal ends what the pages started.
    signal.signal(signal.SIGTERM, lambda *_: sys.exit(1))
    status = 0
    for page in words or PAGES:
        if not is_check:
            write(page)
            continue
        lines = differing(page, folder)
        print(f"{page}: {'differs' if lines else 'as expected'}", flush=True)
        print("".join(f"  {line}\n" for line in lines), end="")
        status = 1 if lines else status
    return status


if __name__ == "__main__":
    sys.exit(main(sys.argv[1:]))
