#!/usr/bin/env python3
"""Writes a store as a version of mpw leaves it, for the test of upgrades (test_upgrade.py). Run it once for each version, with its program.

  clients/python/tests/stores/old_store.py PROGRAM

PROGRAM is libexec/mpw/mpw-script of an installation, or a program that opens a store. It writes VERSION.tar.gz to this folder, with desk.db and
what the database has beside it. The version is that of the file VERSION.
"""
import os
import subprocess
import sys
import tarfile
import tempfile

HERE = os.path.dirname(os.path.abspath(__file__))
sys.dont_write_bytecode = True
sys.path[:0] = [os.path.dirname(HERE), os.path.dirname(os.path.dirname(HERE))]

import shuttles  # noqa: E402
from stand_in import TOP  # noqa: E402

DIGEST = "ba7816bf8f01cfea414140de5dae2223b00361a396177a9cb410ff61f20015ad"
# Of the three markers of the run two have a waiver, and one of these is signed.
SIGNED, ASKED = "w:V:0:500:510:0:100", "w:V:0:-10:0:-100:0"
SCRIPTS = [
    shuttles.three_firms(), shuttles.session("carl", "shuttle", f"waive {SIGNED}", f"waive {ASKED}"), shuttles.session("dora", "signing", f"sign {SIGNED}")]


def main(words):
    if len(words) != 1:
        print(__doc__, file=sys.stderr)
        return 2
    with open(os.path.join(TOP, "VERSION"), encoding="ascii") as file:
        version = file.read().strip()
    with tempfile.TemporaryDirectory() as folder:
        for script in SCRIPTS:
            command = [words[0], "script", "--officer", "root", "--digest", DIGEST, "--store", os.path.join(folder, "desk.db")]
            ran = subprocess.run(command, input=script, stdout=subprocess.PIPE, check=True)
            lines = ran.stdout.decode().splitlines()
            print("\n".join(line for line in lines if line.startswith(("DENIED", "REFUSED"))) or f"{len(lines)} lines")
        with tarfile.open(os.path.join(HERE, f"{version}.tar.gz"), "w:gz") as tar:
            for name in sorted(os.listdir(folder)):
                tar.add(os.path.join(folder, name), name)
    return 0


if __name__ == "__main__":
    sys.exit(main(sys.argv[1:]))
