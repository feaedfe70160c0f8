#!/usr/bin/env python3
"""Runs a command, and then prints what each crate's proofs, tests, mutants and programs took.

  scripts/gate_times.py rt ci [-- COMMAND..]

As each crate is proved, a line shows how many of all are and estimates the time left, by scripts/build_times.txt and the number of
mutants. The times are processor seconds of the checker's processes, read off /proc twice a second, so a little too small. Machines differ,
and a shared one changes from hour to hour: so the last line of the times has what a fixed loop took meanwhile. If the first command passes, the command after -- runs. The last line is the first command's last line, its verdict; if the second command failed, a
line after it says so.
"""
import collections
import glob
import os
import subprocess
import sys
import threading
import time

import build

TICK = os.sysconf("SC_CLK_TCK")
COLUMNS = ("proof", "tests", "mutants", "runs")
# Once in so many seconds a loop of so many additions is timed.
EVERY, ADDITIONS = 60, 1_000_000
# The seconds that a mutant takes, and a crate that scripts/build_times.txt doesn't list.
MUTANT, UNLISTED = 15, 60


def work_of(pid):
    """Returns the crate and the kind of work of a process, or None."""
    with open(f"/proc/{pid}/cmdline", "rb") as file:
        words = file.read().decode(errors="replace").split("\0")
    program = os.path.basename(words[0]) if words else ""
    if "/rt-run-" in words[0]:
        return program.removesuffix("_tests"), "runs"
    if program != "rattle" or "--crate-name" not in words:
        return None
    crate = words[words.index("--crate-name") + 1]
    if "/rt-edit-" in os.readlink(f"/proc/{pid}/cwd"):
        return crate, "mutants"
    return crate, "tests" if "--test" in words else "proof"


def seconds_of(pid):
    with open(f"/proc/{pid}/stat", encoding="utf-8", errors="replace") as file:
        fields = file.read().rpartition(")")[2].split()
    return (int(fields[11]) + int(fields[12])) / TICK


def sample(spent):
    for folder in glob.glob("/proc/[0-9]*"):
        pid = int(os.path.basename(folder))
        try:
            work = work_of(pid)
            if work:
                spent[pid, work] = max(spent.get((pid, work), 0), seconds_of(pid))
        except (OSError, IndexError, ValueError):
            pass


class Pace:
    """How fast the machine is: the processor seconds of a fixed loop, timed again and again while other work runs."""

    def __init__(self):
        self.taken, self.next = [], 0
        self.look()

    def look(self):
        if time.monotonic() < self.next:
            return
        self.next = time.monotonic() + EVERY
        began, total = time.thread_time(), 0
        for number in range(ADDITIONS):
            total += number
        self.taken.append(time.thread_time() - began)

    def __str__(self):
        mean = sum(self.taken) / len(self.taken)
        return f"a Python loop of 10^7 additions took {mean * 10_000_000 / ADDITIONS:.2f} processor seconds"


class Progress:
    """How many crates a gate has proved, and how long it will still take."""

    def __init__(self):
        with open(f"{build.TOP}/crates.txt", encoding="utf-8") as file:
            names = [line.partition(":")[0].strip() for line in file if ":" in line.partition("#")[0]]
        listed = build.listed_times()
        mutants = {it: len(glob.glob(f"{build.TOP}/crates/{it}/must-fail/*.edit")) for it in names}
        self.left = {it: listed.get(it, UNLISTED) + MUTANT * mutants[it] for it in names}
        self.count, self.whole, self.began = len(names), sum(self.left.values()), time.monotonic()

    def note(self, line):
        """Prints the progress if the line says that a crate was proved; one that an earlier run proved takes no time."""
        words = line.split()
        if words[:1] == ["rt:"] and words[2:4] == ["is", "kept:"]:
            self.whole -= self.left.pop(words[1], 0)
        if words[:1] == ["rt:"] and words[2:3] == ["proved"] and self.left.pop(words[1], None):
            rest = sum(self.left.values())
            seconds = (time.monotonic() - self.began) * rest / (self.whole - rest)
            print(f"mpw: {self.count - len(self.left)} of {self.count} crates proved, {build.in_words(seconds)} left", flush=True)


def tell(spent, wall, pace):
    table = collections.defaultdict(lambda: dict.fromkeys(COLUMNS, 0.0))
    for (_, (crate, kind)), seconds in spent.items():
        table[crate][kind] += seconds
    print(f"{'processor seconds':<18}" + "".join(f"{name:>14}" for name in COLUMNS) + f"{'all':>10}")
    for crate, row in sorted(table.items(), key=lambda it: -sum(it[1].values())):
        print(f"{crate:<18}" + "".join(f"{row[name]:>14.0f}" for name in COLUMNS) + f"{sum(row.values()):>10.0f}")
    sums = [sum(row[name] for row in table.values()) for name in COLUMNS]
    print(f"{'all':<18}" + "".join(f"{it:>14.0f}" for it in sums) + f"{sum(sums):>10.0f}")
    print(f"{wall:.0f} seconds in all, {len(os.sched_getaffinity(0))} processors; {pace}", flush=True)


def hand_on(lines, kept):
    progress = Progress()
    for line in lines:
        print(line, end="", flush=True)
        progress.note(line)
        kept.append(line.rstrip("\n"))
        del kept[:-1]


def main(words):
    at = words.index("--") if "--" in words else len(words)
    words, then = words[:at], words[at + 1:]
    began, spent, last, pace = time.monotonic(), {}, [], Pace()
    with subprocess.Popen(words, stdout=subprocess.PIPE, text=True, errors="replace") as ran:
        printing = threading.Thread(target=hand_on, args=(ran.stdout, last))
        printing.start()
        while ran.poll() is None:
            sample(spent)
            pace.look()
            time.sleep(0.5)
        printing.join()
    tell(spent, time.monotonic() - began, pace)
    status = ran.returncode
    if then and status == 0:
        status = subprocess.run(then, stdin=subprocess.DEVNULL).returncode
    print(*last)
    if status != ran.returncode:
        print(f"failed: {' '.join(then)}")
    return status


if __name__ == "__main__":
    sys.exit(main(sys.argv[1:]))
