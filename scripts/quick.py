#!/usr/bin/env python3
"""Runs all golden tests, the examples, random scripts and the client's tests without any proof.

  scripts/quick.py

It copies the tree to a folder of its own, compiles each program there without proof (scripts/unproved.py, optimised), runs each on its
stdin, args and data, and compares what it prints and its exit status. Then it runs examples/check.py --desk, model/compare.py,
clients/python/test, integrations/test and scripts/try_package.py in the copy. A line shows each step as it ends, with an estimate of the time left. The
exit status is 0 if all passed. The gate, ./test, proves the same programs before it runs them; only its verdict counts.
"""
import concurrent.futures
import os
import shutil
import subprocess
import sys
import tempfile
import threading
import time

import build
import versions

HERE = os.path.dirname(os.path.abspath(__file__))
TOP = os.path.dirname(HERE)
# The seconds that a program of the gate may take.
MOST = 120
# How long compiling a program takes beside one running its tests, for the estimate.
COMPILING, RUNNING, SUITE = 10, 1, 8
SUITES = (["examples/check.py", "--desk"], ["model/compare.py", "crates/mpw_main/out/mpw_main"], ["clients/python/test"],
          ["integrations/test"], ["scripts/try_package.py"])


class Progress:
    """Prints each step as it ends."""

    def __init__(self, parts):
        self.left, self.done, self.whole, self.began = dict(parts), 0.0, sum(parts.values()), time.monotonic()
        self.count, self.failed, self.lock = len(parts), [], threading.Lock()

    def note(self, step, fault):
        with self.lock:
            self.print(step, fault)

    def print(self, step, fault):
        self.done += self.left.pop(step)
        seconds = (time.monotonic() - self.began) * (self.whole / self.done - 1)
        rest = f", about {seconds / 60:.0f} minutes left" if self.left else ""
        print(f"{self.count - len(self.left)} of {self.count}: {step}: {fault or 'passed'}{rest}", flush=True)
        if fault:
            self.failed.append(step)


def copied(folder):
    """Copies what is in the tree, without what was built, and returns the copy's path."""
    listed = subprocess.run(["git", "ls-files", "-z", "-co", "--exclude-standard"], cwd=TOP, stdout=subprocess.PIPE, check=True)
    for name in listed.stdout.decode().split("\0"):
        if name and os.path.isfile(f"{TOP}/{name}"):
            os.makedirs(os.path.dirname(f"{folder}/{name}") or folder, exist_ok=True)
            shutil.copy(f"{TOP}/{name}", f"{folder}/{name}")
    return folder


def programs(folder):
    """The names of all programs, those that stand on the most crates first."""
    found = [it for it in os.listdir(f"{folder}/crates") if os.path.isfile(f"{folder}/crates/{it}/src/main.rt")]
    return sorted(found, key=lambda it: (-len(build.crates_of(it)), it))


def compile_one(folder, name):
    """Compiles a program of the copy, to the place where the gate's would be. Returns a fault, or nothing."""
    words = [sys.executable, "-c", "import sys, unproved; print(unproved.built(sys.argv[1], is_fast=True))", name]
    ran = subprocess.run(words, cwd=f"{folder}/scripts", stdout=subprocess.PIPE, stderr=subprocess.STDOUT, text=True, check=False)
    if ran.returncode:
        return f"can't be compiled\n{ran.stdout}"
    shutil.copy(ran.stdout.strip().splitlines()[-1], f"{folder}/crates/{name}/out/{name}")
    return None


def read(path, otherwise=b""):
    try:
        with open(path, "rb") as file:
            return file.read()
    except FileNotFoundError:
        return otherwise


def run_one(folder, name):
    """Runs a program on its golden test. Returns a fault, or nothing."""
    crate = f"{folder}/crates/{name}"
    arguments, status = read(f"{crate}/args").decode().splitlines(), int(read(f"{crate}/status", b"0"))
    with tempfile.TemporaryDirectory() as room:
        if os.path.isdir(f"{crate}/data"):
            shutil.copytree(f"{crate}/data", room, dirs_exist_ok=True)
        words = [f"{crate}/out/{name}", *arguments]
        try:
            ran = subprocess.run(words, cwd=room, input=read(f"{crate}/stdin"), stdout=subprocess.PIPE, timeout=MOST, check=False)
        except subprocess.TimeoutExpired:
            return f"hadn't ended after {MOST} seconds"
    if ran.returncode != status:
        return f"status {ran.returncode}, expected {status}"
    return None if ran.stdout == read(f"{crate}/stdout") else "prints something else than its stdout"


def test_program(folder, name, progress):
    fault = compile_one(folder, name)
    progress.note(f"{name} compiled", fault)
    progress.note(f"{name} run", fault and "not run" or run_one(folder, name))


def main(words):
    if words:
        print(__doc__, file=sys.stderr)
        return 2
    with tempfile.TemporaryDirectory(prefix="mpw-quick-") as folder:
        names = programs(copied(folder))
        steps = {f"{name} {step}": cost for name in names for step, cost in (("compiled", COMPILING), ("run", RUNNING))}
        progress = Progress({**steps, **{" ".join(it): SUITE for it in SUITES}})
        with concurrent.futures.ThreadPoolExecutor(len(os.sched_getaffinity(0))) as pool:
            list(pool.map(lambda name: test_program(folder, name, progress), names))
        # The copy has no commit, whose time the package's files have.
        how = {"cwd": folder, "env": {**os.environ, "SOURCE_DATE_EPOCH": str(versions.commit_time() or int(time.time()))}}
        for suite in SUITES:
            ran = subprocess.run(suite, stdin=subprocess.DEVNULL, stdout=subprocess.PIPE, stderr=subprocess.STDOUT, check=False, **how)
            if ran.returncode:
                print(ran.stdout.decode(errors="replace"), flush=True)
            progress.note(" ".join(suite), f"status {ran.returncode}" if ran.returncode else None)
    print(f"{progress.count - len(progress.failed)} passed, {len(progress.failed)} failed, nothing proved")
    return 1 if progress.failed else 0


if __name__ == "__main__":
    sys.exit(main(sys.argv[1:]))
