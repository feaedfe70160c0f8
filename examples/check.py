#!/usr/bin/env python3
"""Compares what the programs print for the examples with what is expected, and prints which differ.

  examples/check.py            NAME.gds under NAME.deck by mpw check, for each NAME.markers and for each
                               NAME.fault, which is on the standard error; what failed.awk
                               prints of NAME.txt with NAME.replies, for each NAME.failed; and what
                               becomes of a check's outputs (outputs.py), of what it is given
                               besides its files (choices.py), units below 1 nm (units.py), the rules'
                               pictures (rules.py), what
                               the paths cover that KLayout draws otherwise (paths.py), and arrays of
                               overlapping cells next to the same layouts flat (overlaps.py)
  examples/check.py --desk     then also NAME.txt by mpw script, for each NAME.replies, and what
                               the commands print of themselves (words.py) and store (stores.py),
                               and what the commands of the README and the tutorials print (pages.py)

The exit status is 0 if all are the same, else 1. A program that isn't built is proved and built
first.
"""
import difflib
import glob
import os
import subprocess
import sys

import choices
import outputs
import overlaps
import pages
import paths
import rules
import stores
import units
import words as told_words

HERE = os.path.dirname(os.path.abspath(__file__))
MPW = os.path.join(os.path.dirname(HERE), "mpw")
# Of the officer's token abc.
DIGEST = "ba7816bf8f01cfea414140de5dae2223b00361a396177a9cb410ff61f20015ad"


def of_check(name, expected):
    """What mpw check prints, its status, and the expected status: 0 without markers, else 1."""
    words = [MPW, "check", "--deck", f"{name}.deck", "--top", "TOP", f"{name}.gds"]
    ended = subprocess.run(words, stdout=subprocess.PIPE, stderr=subprocess.DEVNULL)
    return ended.stdout, ended.returncode, 0 if expected == b"OK 0\n" else 1


def of_fault(name, _):
    """What mpw check prints of a deck or a library with a fault, and its status, which has to be 4."""
    name = os.path.basename(name)
    words = [MPW, "check", "--deck", f"{name}.deck", "--top", "TOP", f"{name}.gds"]
    ended = subprocess.run(words, cwd=HERE, stdout=subprocess.DEVNULL, stderr=subprocess.PIPE)
    return ended.stderr, ended.returncode, 4


def of_failed(name, _):
    words = ["awk", "-v", f"replies={name}.replies", "-f", os.path.join(HERE, "failed.awk")]
    environment = {**os.environ, "LC_ALL": "C"}
    ended = subprocess.run([*words, f"{name}.txt"], stdout=subprocess.PIPE, env=environment)
    return ended.stdout, ended.returncode, 0


def of_script(name, _):
    with open(f"{name}.txt", "rb") as script:
        words = [MPW, "script", "--officer", "root", "--digest", DIGEST]
        ended = subprocess.run(words, stdin=script, stdout=subprocess.PIPE)
    return ended.stdout, ended.returncode, 0


def is_same(path, run):
    """Whether the program of an example prints what its file has; prints what differs."""
    with open(path, "rb") as file:
        expected = file.read()
    found, status, wanted = run(os.path.splitext(path)[0], expected)
    same = found == expected and status == wanted
    print(f"{os.path.basename(path)}: {'as expected' if same else 'differs'}", flush=True)
    if status != wanted:
        print(f"  status {status}, expected {wanted}")
    texts = [text.decode().splitlines() for text in (expected, found)]
    for line in difflib.unified_diff(*texts, "expected", "found", lineterm=""):
        print(f"  {line}")
    return same


def is_as_expected(name, case):
    """Whether a case of outputs.py has nothing that differs; prints what does."""
    lines = case()
    print(f"{name}: {'differs' if lines else 'as expected'}", flush=True)
    for line in lines:
        print(f"  {line}")
    return not lines


def main(words):
    if words not in ([], ["--desk"]):
        sys.exit(__doc__)
    kinds = [("markers", of_check), ("fault", of_fault), ("failed", of_failed)] + [("replies", of_script)] * len(words)
    told = []
    for kind, run in kinds:
        for path in sorted(glob.glob(os.path.join(HERE, f"*.{kind}"))):
            told.append(is_same(path, run))
    of_desk = {**told_words.CASES, **stores.CASES, **pages.CASES} if words else {}
    cases = {**outputs.CASES, **choices.CASES, **units.CASES, **rules.CASES, **paths.CASES, **overlaps.CASES, **of_desk}
    told += [is_as_expected(name, case) for name, case in cases.items()]
    return 0 if told and all(told) else 1


if __name__ == "__main__":
    sys.exit(main(sys.argv[1:]))
