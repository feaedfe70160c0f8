#!/usr/bin/env python3
"""Times how long a start over a store takes that has finished runs, since a start computes their markers again.

  bench/reopen.py [RUNS]      50 runs without the number

Needs crates/mpw_main/out/mpw_main (`./mpw build serve`). The wafer is an array of 1024 by 1024 boxes, 2^20 shapes, in 100 tiles under two rules, without markers.
"""
import os
import resource
import subprocess
import sys
import tempfile
import time

import layouts

PROGRAM = os.path.join(os.path.dirname(os.path.abspath(__file__)), "..", "crates", "mpw_main", "out", "mpw_main")
# The SHA-256 of the officer's token abc.
DIGEST = "ba7816bf8f01cfea414140de5dae2223b00361a396177a9cb410ff61f20015ad"
DECK = b"tile 1024\nwidth w 1/0 4\nspace s 1/0 6\n"


def processor():
    used = resource.getrusage(resource.RUSAGE_CHILDREN)
    return used.ru_utime + used.ru_stime


def timed(name, store, body):
    began, used = time.monotonic(), processor()
    ended = subprocess.run([PROGRAM, "script", "--officer", "root", "--digest", DIGEST, "--store", store], input=body, stdout=subprocess.PIPE, stderr=subprocess.PIPE)
    last = ended.stdout.decode().splitlines()[-1:]
    print(f"{name}: {time.monotonic() - began:.1f} s, {processor() - used:.1f} processor seconds, status {ended.returncode}, last reply {last}", flush=True)


def main(words):
    runs = int(words[0]) if words else 50
    with tempfile.TemporaryDirectory() as folder:
        store = f"{folder}/desk.db"
        body = layouts.script(True, layouts.grid(), then=(b"grant place chip officer", b"grant deck desk officer", b"grant run desk officer",
                                                          b"place chip c R0 0 0", b"deck %d" % len(DECK)))
        timed("the first run", store, body + DECK + b"run\nstatus\n")
        timed(f"{runs - 1} more, with a start over one", store, b"open root abc\nactivate officer\n" + b"run\n" * (runs - 1) + b"status\n")
        timed(f"a start over {runs} runs", store, b"open root abc\nactivate officer\nstatus\n")
    return 0


if __name__ == "__main__":
    sys.exit(main(sys.argv[1:]))
