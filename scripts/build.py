#!/usr/bin/env python3
"""Proves programs and the crates that they stand on, and builds the programs.

  scripts/build.py PROGRAM..
  scripts/build.py --times      prints the processor seconds that each crate took on this machine, for scripts/build_times.txt

The toolchain's `rattle` proves each crate from nothing over the libraries that it built of the crates below, and builds none that
isn't proved. Its own compiler makes the program: that takes a few seconds, clang takes fifty, and the code is as fast. The gate
alone tries the mutants and checks the layout of the texts. A crate begins as soon as those below it are proved and there is memory
for it, the one with the longest chain of crates above it first. One crate more than there are processors is checked at a time. A
check takes one process, since each further one reads and checks again what the others did. It takes more if processors would be
idle. The longer the chains of the crates that run beside it, the lower is its priority.

A library stays in the folder out/rlib of its crate, with a sum of all that it was made of. So a build that was interrupted goes on
from there, and the next program's build proves only what the two don't share. The standard error shows a line for each crate, with
an estimate of the time left: from what each crate took on this machine, else from scripts/build_times.txt, scaled by how fast this
build has been so far.
"""
import concurrent.futures
import fcntl
import functools
import hashlib
import json
import math
import os
import re
import secrets
import shutil
import subprocess
import sys
import tempfile

TOP = os.path.dirname(os.path.dirname(os.path.abspath(__file__)))
# What a proof reads of a crate.
PROOF = ("src", "specs", "proofs")
# The memory that a crate's proof may take, in kilobytes, and how much its priority falls for each crate with a longer chain.
MEMORY = 4_000_000
NICER = 3
# The bytes of sources that take a proof as long as the least that each takes, and as each crate below does.
LEAST = 4800
REACH = 300
# The last line of a check that proved a crate, without a word that would leave something out of that; and what comes after it if the
# crate was compiled.
VERDICT = re.compile(
    r"logic=proved( (functions|axioms|target|cpu|threads|main|may-wait|sum)=\S+)+"
    r" native=\S+ logic-built=trusted libraries-built=trusted statements=trusted"
)
COMPILED = re.compile(r"note: .* may call itself, .*|built: backend=rattle .*")
# What a check prints of what passed, which doesn't say why another crate or function failed.
PASSED = re.compile(r"(statements|logic) .*|fn \S+: proved")
# What describes a library of an earlier build.
KEPT = "out/rlib/kept"
# The processor seconds of each crate on the machine that the pages speak of.
TIMES = f"{TOP}/scripts/build_times.txt"
# The estimate of the time left is scaled once so many processor seconds were spent.
ENOUGH = 60
# A folder that is in memory, and what has to be free there, in bytes.
IN_MEMORY = "/dev/shm"
ROOM = 4_000_000_000


def say(text):
    print(f"mpw: {text}", file=sys.stderr, flush=True)


def said(*words):
    """Returns what a command prints."""
    return subprocess.run(words, stdout=subprocess.PIPE, stdin=subprocess.DEVNULL, text=True, check=True).stdout.strip()


class Toolchain:
    """The toolchain's folder, and which it is."""

    def __init__(self):
        self.folder, self.version = os.path.dirname(said("rt", "doc")), said("rt", "version")

    def build(self):
        return [f"{self.folder}/bin/rattle", "build"]

    def libraries(self, names):
        """Returns the words of a check that name libraries of the toolchain and its logic."""
        found = [it for name in names for it in ("--extern", f"{name}={self.folder}/rlibs/{name}.rlib")]
        found += ["-L", f"dependency={self.folder}/rlibs", "--antt-project", f"{self.folder}/rattle/logic/antt-project.json"]
        return [*found, "--logic-built", f"{self.folder}/logic_built"]

    def compiler(self):
        return ["--toolchain", f"{self.folder}/toolchain", "--backend", "rattle"]

    def link(self, made, program):
        words = [f"{self.folder}/bin/rattle-link", "--target", "x86_64-unknown-linux-gnu", "--toolchain", f"{self.folder}/toolchain"]
        return [*words, "-o", program, made, f"{self.folder}/c/libos_c.a", f"{self.folder}/c/liblibc_c.a"]


class Crate:
    """A crate of crates.txt, with those that it names, by a table of all."""

    def __init__(self, name, names, known):
        self.name, self.folder = name, f"{TOP}/crates/{name}"
        self.uses = [known[it] for it in names if it in known]
        self.of_toolchain = [it for it in names if it not in known]
        self.root = "src/main.rt" if os.path.isfile(f"{self.folder}/src/main.rt") else "src/lib.rt"
        self.is_program = self.root == "src/main.rt"
        self.rlib = f"{self.folder}/out/rlib/{name}.rlib"
        # What its proof builds.
        self.built = f"{self.folder}/out/{name}" if self.is_program else self.rlib

    @functools.cached_property
    def below(self):
        """The crates that it stands on, lowest first."""
        found = {}
        for used in self.uses:
            found.update(dict.fromkeys([*used.below, used]))
        return [*found]

    @functools.cached_property
    def files(self):
        walked = (it for part in PROOF for it in os.walk(f"{self.folder}/{part}"))
        return sorted(f"{at}/{it}" for at, _, names in walked for it in names)

    @functools.cached_property
    def sources(self):
        """The bytes of its sources: lemmas take little of a proof."""
        return sum(os.path.getsize(it) for it in self.files if it.startswith(f"{self.folder}/src/"))

    @property
    def size(self):
        """What its proof takes, by the bytes of its sources and by the crates below."""
        return self.sources + LEAST + REACH * len(self.below)

    @functools.cached_property
    def sum(self):
        """A sum of all that a proof of it reads but the toolchain."""
        found = hashlib.sha256(repr((self.of_toolchain, [it.sum for it in self.uses])).encode())
        for file in self.files:
            with open(file, "rb") as it:
                found.update(repr((os.path.relpath(file, self.folder), it.read())).encode())
        return found.hexdigest()

    def words(self, toolchain):
        """Returns the words of a check of it over the libraries below, which have to be there."""
        words = ["--crate-name", self.name, self.root, *toolchain.libraries(["std", *self.of_toolchain])]
        words += [it for used in self.uses for it in ("--extern", f"{used.name}={used.rlib}")]
        words += [it for used in self.below for it in ("-L", f"dependency={os.path.dirname(used.rlib)}")]
        return [*words, "--links", f"{self.name}="]

    @property
    def kept(self):
        """The description of the library that was built, or nothing."""
        try:
            with open(f"{self.folder}/{KEPT}", encoding="utf-8") as file:
                return json.load(file)
        except (OSError, ValueError):
            return {}

    def wanted(self, toolchain):
        """What a library's description must say: of what it was made, and over which libraries."""
        return {"toolchain": toolchain.version, "sum": self.sum, "over": [it.kept.get("build") for it in self.below]}

    def is_kept(self, toolchain):
        return self.wanted(toolchain).items() <= self.kept.items() and os.path.exists(self.built)

    def keep(self, wanted):
        """Describes what was built."""
        os.makedirs(os.path.dirname(self.rlib), exist_ok=True)
        with open(f"{self.folder}/{KEPT}", "w", encoding="utf-8") as file:
            json.dump({**wanted, "build": secrets.token_hex(16)}, file)

    @property
    def spent(self):
        """The processor seconds of its last proof on this machine, or 0."""
        try:
            with open(f"{self.folder}/out/seconds", encoding="utf-8") as file:
                return float(file.read())
        except (OSError, ValueError):
            return 0.0

    def note_spent(self, seconds):
        os.makedirs(f"{self.folder}/out", exist_ok=True)
        with open(f"{self.folder}/out/seconds", "w", encoding="utf-8") as file:
            file.write(f"{seconds:.1f}\n")


def crates_of(*programs):
    """Returns programs and all that they stand on, lowest first."""
    lines, known = {}, {}
    with open(f"{TOP}/crates.txt", encoding="utf-8") as file:
        for line in file:
            first, colon, names = line.partition("#")[0].partition(":")
            if colon:
                lines[first.split()[0]] = names.split()
    left = [*programs]
    for it in left:
        left += [other for other in lines[it] if other in lines and other not in left]
    while left:
        ready = [it for it in left if all(other in known for other in lines[it] if other in lines)]
        known.update({it: Crate(it, lines[it], known) for it in ready})
        left = [it for it in left if it not in ready]
    return [*known.values()]


def chains(crates):
    """Returns the size of each crate together with the longest chain of crates above it."""
    found = {}
    for crate in reversed(crates):
        found[crate] = crate.size + max((it for other, it in found.items() if crate in other.uses), default=0)
    return found


def run(crate, words, nice):
    """Runs a command in the crate's folder. Returns whether it succeeded, what it printed or else how it ended, and its processor
    seconds."""
    with tempfile.TemporaryFile() as printed:
        how = {"cwd": crate.folder, "stdin": subprocess.DEVNULL, "stdout": printed, "stderr": subprocess.STDOUT}
        with subprocess.Popen(["nice", "-n", str(nice), *words], **how) as process:
            _, status, usage = os.wait4(process.pid, 0)
            process.returncode = os.waitstatus_to_exitcode(status)
        printed.seek(0)
        text = printed.read().decode(errors="replace")
    silent = f"{words[0]} ended with {process.returncode} and printed nothing"
    return process.returncode == 0, text or silent, usage.ru_utime + usage.ru_stime


def is_proved(text):
    """Whether a check that says this proved its crate."""
    lines = text.rstrip("\n").split("\n")
    while COMPILED.fullmatch(lines[-1]):
        lines.pop()
    return bool(VERDICT.fullmatch(lines[-1]))


def prove(crate, toolchain, jobs, nice):
    """Proves and builds a crate. Returns what failed, or nothing. The description that it stores is of the texts as they were before."""
    wanted = crate.wanted(toolchain)
    words = [*toolchain.build(), *crate.words(toolchain), "--jobs", str(jobs)]
    if crate.is_program:
        with tempfile.TemporaryDirectory() as room:
            made, program = f"{room}/{crate.name}.o", f"{room}/{crate.name}"
            well, text, seconds = run(crate, [*words, *toolchain.compiler(), "-o", made], nice)
            well = well and is_proved(text)
            if well:
                well, text, _ = run(crate, toolchain.link(made, program), nice)
            if well:
                crate.note_spent(seconds)
                shutil.move(program, crate.built)
                crate.keep(wanted)
        return None if well else text
    shutil.rmtree(os.path.dirname(crate.rlib), ignore_errors=True)
    os.makedirs(os.path.dirname(crate.rlib))
    well, text, seconds = run(crate, [*words, "--statements", "-o", crate.rlib], nice)
    if not well or not is_proved(text):
        return text
    crate.note_spent(seconds)
    crate.keep(wanted)
    return None


def place():
    """Returns where the temporary files of all checks go: into memory if there is room, or nothing for the system's own place. A check
    writes some ten thousand small files, reads and removes them; on a disk the checks wait for one another."""
    if "TMPDIR" in os.environ or not os.access(IN_MEMORY, os.W_OK | os.X_OK):
        return None
    return IN_MEMORY if shutil.disk_usage(IN_MEMORY).free >= ROOM else None


def free():
    """Returns the free memory in kilobytes."""
    with open("/proc/meminfo", encoding="ascii") as file:
        return int(re.search(r"MemAvailable:\s+(\d+)", file.read())[1])


def shares(crate, ready, running, left, processors):
    """Returns how many processes the proof of a crate takes that begins before the others that are ready. Each crate that runs or is
    ready counts as one, and this one takes what they leave. If fewer crates are left beside it than there are processors, it takes all:
    the others share them with it. No process is worth its reading for fewer bytes than a proof's least."""
    beside = sum(crate not in it.below for it in (*running, *left))
    idle = processors - len(running) - (len(ready) - 1)
    wanted = processors if beside < processors else idle
    return max(1, min(wanted, processors, -(-crate.sources // LEAST)))


def listed_times():
    """The processor seconds of each crate in scripts/build_times.txt."""
    with open(TIMES, encoding="utf-8") as file:
        return {name: float(seconds) for name, seconds in (line.split() for line in file if not line.startswith("#"))}


class Estimate:
    """How long a build will still take, by the processor seconds that its crates are expected to take."""

    def __init__(self, crates, processors):
        listed = listed_times()
        self.expected = {it: it.spent or listed.get(it.name) or it.size / 400 for it in crates}
        self.processors, self.foreseen, self.spent = processors, 0.0, 0.0

    def note(self, crate):
        """Notes that a crate was proved."""
        self.foreseen += self.expected[crate]
        self.spent += crate.spent

    def seconds_left(self, left, running):
        """The seconds until all of these are proved; of those that run a half is expected to be done."""
        longest = {}
        for crate in reversed(left):
            above = max((seconds for other, seconds in longest.items() if crate in other.uses), default=0)
            longest[crate] = above + self.expected[crate]
        work = sum(self.expected[it] for it in left) + sum(self.expected[it] for it in running) / 2
        scale = self.spent / self.foreseen if self.spent > ENOUGH else 1
        return scale * max(work / self.processors, max(longest.values(), default=0))


def in_words(seconds):
    """A time in minutes, rounded up, or in seconds if it is short."""
    if seconds < 90:
        return f"about {max(10, round(seconds, -1)):.0f} seconds"
    return f"about {math.ceil(seconds / 60)} minutes"


def prove_all(crates, toolchain):
    """Proves the crates and shows the progress. Returns what failed, or nothing."""
    chain, processors = chains(crates), len(os.sched_getaffinity(0))
    done, left = set(), sorted(crates, key=lambda it: -chain[it])
    for crate in crates:
        if done.issuperset(crate.below) and crate.is_kept(toolchain):
            done.add(crate)
            left.remove(crate)
            if crate.is_program:
                # A source may be newer than the program although its text is the same.
                os.utime(crate.built)
    lanes, running, total, failed = max(1, min(processors + 1, free() // MEMORY)), {}, len(left), None
    estimate = Estimate(crates, processors)
    if total:
        kept = f" ({len(crates) - total} are proved already)" if len(crates) > total else ""
        say(f"proving {total} crates{kept}: {in_words(estimate.seconds_left([it for it in crates if it in left], []))}")
    with concurrent.futures.ThreadPoolExecutor(lanes) as pool:
        while running or left and not failed:
            ready = [it for it in left if not failed and done.issuperset(it.uses)]
            while ready and len(running) < lanes:
                crate = ready[0]
                left.remove(crate)
                jobs = shares(crate, ready, running.values(), left, processors)
                waited_for = sum(chain[it] > chain[crate] for it in running.values())
                running[pool.submit(prove, crate, toolchain, jobs, NICER * waited_for)] = crate
                ready = ready[1:]
            for it in concurrent.futures.wait(running, return_when=concurrent.futures.FIRST_COMPLETED).done:
                crate, why = running.pop(it), it.result()
                if why:
                    failed = failed or f"{crate.name}:\n{why}"
                    continue
                done.add(crate)
                estimate.note(crate)
                to_do = estimate.seconds_left([it for it in crates if it in left], running.values())
                rest = f", {in_words(to_do)} left" if left or running else ""
                say(f"{total - len(left) - len(running)} of {total} crates proved ({crate.name}){rest}")
    return failed


def print_times():
    """Prints what each crate's last proof took on this machine."""
    with open(f"{TOP}/crates.txt", encoding="utf-8") as file:
        names = [line.partition(":")[0].split()[0] for line in file if ":" in line.partition("#")[0]]
    for crate in sorted(crates_of(*names), key=lambda it: it.name):
        if crate.spent:
            print(f"{crate.name} {crate.spent:.0f}")


def main(words):
    if words == ["--times"]:
        print_times()
        return 0
    if not words:
        print(__doc__, file=sys.stderr)
        return 2
    for name in words:
        if not os.path.isfile(f"{TOP}/crates/{name}/src/main.rt"):
            say(f"{name} is no program of this repository")
            return 2
    with open(f"{TOP}/crates.txt", encoding="utf-8") as lock, tempfile.TemporaryDirectory(prefix="mpw-build-", dir=place()) as room:
        fcntl.flock(lock, fcntl.LOCK_EX)
        os.environ["TMPDIR"] = room
        failed = prove_all(crates_of(*words), Toolchain())
    if failed:
        shown = "\n".join(it for it in failed.splitlines() if not PASSED.fullmatch(it))
        say(f"not proved, so nothing was built: {shown[:4000]}")
        return 1
    return 0


if __name__ == "__main__":
    sys.exit(main(sys.argv[1:]))
