#!/usr/bin/env python3
"""Compares a program with the model: both serve the same random scripts, and have to print the same bytes.

  model/compare.py PROGRAM [--rounds N] [--first K] [GROUP ..]
  model/compare.py --squares [--rounds N] [--first K]

The first makes a script of each group (or of those named) for each of N numbers from K, runs `PROGRAM script` on it,
and tells which replies or which exit status differ, with the file of the script. At its end stand how often each
request was accepted, and how often each denial and each code was told. The second compares the model with itself:
the markers of small runs with what the definition says of them square by square. The exit status is 0 where nothing
differs, else 1.
"""
import argparse
import os
import re
import subprocess
import sys
import tempfile
import time
from collections import Counter
from dataclasses import dataclass
from itertools import zip_longest

import scripts
import squares
from desk import serve
from scripts.script import DIGEST, OFFICER

HERE = os.path.dirname(os.path.abspath(__file__))
OTHER_OFFICERS = ["ann", "-", "desk", "x" * 255, 'a,"b', "officer", "admin"]


@dataclass
class Comparison:
    """A script of a group and a number, with the words of its command line, and whether its input comes bit by bit."""

    group: str
    number: int
    text: bytes
    officer: str
    digest: str
    is_slow: bool

    @property
    def words(self):
        """The words of the command line."""
        return ["script", "--officer", self.officer, "--digest", self.digest]


def comparison_of(group, number):
    """Some have another officer, a digest in capitals, or an input that comes bit by bit."""
    random = scripts.random_of(group, f"{number} command")
    has_other = group in ("wire", "policy") and random.random() < .1
    officer = random.choice(OTHER_OFFICERS) if has_other else OFFICER
    digest = DIGEST.hex().upper() if random.random() < .1 else DIGEST.hex()
    return Comparison(group, number, scripts.script_of(group, number), officer, digest, random.random() < .05)


def run_slowly(words, text, random):
    """Runs a program whose input comes in small pieces; what it prints and its exit status."""
    sizes = [1, 2, 3, 7, 50, 4000] if len(text) < 20000 else [100, 5000]
    with tempfile.TemporaryFile() as printed:
        with subprocess.Popen(words, stdin=subprocess.PIPE, stdout=printed, stderr=subprocess.DEVNULL) as process:
            try:
                while text:
                    size = random.choice(sizes)
                    os.write(process.stdin.fileno(), text[:size])
                    text = text[size:]
            except BrokenPipeError:
                pass
            process.stdin.close()
        printed.seek(0)
        return printed.read(), process.returncode


def run(program, comparison):
    """What a program prints for a script, and its exit status."""
    words = [program, *comparison.words]
    if comparison.is_slow:
        return run_slowly(words, comparison.text, scripts.random_of(comparison.group, comparison.number))
    ended = subprocess.run(words, input=comparison.text, stdout=subprocess.PIPE, stderr=subprocess.DEVNULL)
    return ended.stdout, ended.returncode


def keep(comparison, found, expected):
    """Writes a script with what the program printed and what the model did; the script's file."""
    folder = os.path.join(HERE, "out")
    os.makedirs(folder, exist_ok=True)
    path = os.path.join(folder, f"{comparison.group}-{comparison.number}")
    for end, data in (".txt", comparison.text), (".found", found), (".expected", expected):
        with open(path + end, "wb") as file:
            file.write(data)
    return path + ".txt"


def tell_difference(comparison, found, status, expected):
    """Tells a script that differs, its exit status, and the first reply that isn't as expected."""
    path = keep(comparison, found, expected)
    print(f"{comparison.group}-{comparison.number} differs: {' '.join(comparison.words)} < {path}")
    if status != 0:
        print(f"  status {status}, expected 0")
    lines = enumerate(zip_longest(expected.splitlines(), found.splitlines()), 1)
    for number, (wanted, got) in lines:
        if wanted != got:
            print(f"  line {number}: expected {shortened(wanted)}, found {shortened(got)}", flush=True)
            return


def shortened(line):
    """A line as it is told: its first 160 bytes, without others than those of a terminal."""
    return "no line" if line is None else repr(line[:160].decode("latin1"))


class Tally:
    """How often each request was accepted, denied and refused, and what was told."""

    def __init__(self):
        self.requests = {"OK": Counter(), "DENIED": Counter(), "REFUSED": Counter()}
        self.told = Counter()
        self.scripts = Counter()

    def add(self, comparison, connection):
        """Counts a script's replies."""
        self.scripts[comparison.group] += 1
        for entry in connection.desk.trail.entries:
            self.requests[entry.first_line.split(" ")[0]][entry.verb] += 1
            self.tell(entry.first_line)
        for first_line in connection.refused:
            self.tell(first_line)

    def tell(self, first_line):
        """Counts a denial by its kind, of a permission with the operation, and a refusal by its code and word."""
        kind = re.match(r"DENIED permission \S+|DENIED \S+|REFUSED \d+ \S+", first_line)
        if kind:
            self.told[kind[0]] += 1

    def show(self):
        """Prints the tables."""
        verbs = sorted(set().union(*self.requests.values()))
        print(f"{'request':12}" + "".join(f"{word:>10}" for word in self.requests))
        for verb in verbs:
            print(f"{verb:12}" + "".join(f"{counts[verb]:10}" for counts in self.requests.values()))
        print()
        for kind in sorted(self.told, key=lambda kind: [int(word) if word.isdigit() else 0 for word in kind.split()]):
            print(f"{self.told[kind]:8}  {kind}")
        print()
        print(", ".join(f"{count} of {group}" for group, count in self.scripts.items()))


def compare(program, groups, numbers):
    """Compares all scripts; how many differ."""
    tally, differing, begun = Tally(), 0, time.monotonic()
    for number in numbers:
        for group in groups:
            comparison = comparison_of(group, number)
            connection = serve(comparison.text, comparison.officer, DIGEST)
            tally.add(comparison, connection)
            found, status = run(program, comparison)
            if (found, status) != (connection.text, 0):
                differing += 1
                tell_difference(comparison, found, status, connection.text)
    tally.show()
    seconds = time.monotonic() - begun
    print(f"{sum(tally.scripts.values())} scripts compared in {seconds:.0f} s, {differing} differ")
    return differing


def main(words):
    parser = argparse.ArgumentParser(description=__doc__, formatter_class=argparse.RawDescriptionHelpFormatter)
    parser.add_argument("program", nargs="?", metavar="PROGRAM")
    parser.add_argument("groups", nargs="*", metavar="GROUP", help=", ".join(scripts.GROUPS))
    parser.add_argument("--rounds", type=int, default=20, metavar="N")
    parser.add_argument("--first", type=int, default=0, metavar="K")
    parser.add_argument("--squares", action="store_true")
    given = parser.parse_intermixed_args(words)
    numbers = range(given.first, given.first + given.rounds)
    if given.squares:
        return 1 if squares.compare(numbers) else 0
    if given.program is None or not set(given.groups) <= set(scripts.GROUPS):
        parser.error(f"a PROGRAM, and groups of {', '.join(scripts.GROUPS)}")
    return 1 if compare(given.program, given.groups or scripts.GROUPS, numbers) else 0


if __name__ == "__main__":
    sys.exit(main(sys.argv[1:]))
