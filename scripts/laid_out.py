#!/usr/bin/env python3
"""Says which files of the crates aren't in the layout of `rt fmt`. The gate refuses them too, but says so after hours.

  scripts/laid_out.py [CRATE ..]     all crates, if none is named

It lays out copies in a temporary folder, so no file of the repository changes. The exit status is 1 if a file differs.
"""
import concurrent.futures
import filecmp
import os
import shutil
import subprocess
import sys
import tempfile

CRATES = os.path.join(os.path.dirname(os.path.dirname(os.path.abspath(__file__))), "crates")
# What rt fmt lays out.
FOLDERS = ("src", "specs", "proofs")


def files_of(folder):
    for root, _, names in os.walk(folder):
        for name in names:
            yield os.path.relpath(os.path.join(root, name), folder)


def differing(crate, room):
    """Returns the files of a crate that rt fmt changes, and what it said if it failed."""
    copy = os.path.join(room, "crates", crate)
    for folder in FOLDERS:
        if os.path.isdir(os.path.join(CRATES, crate, folder)):
            shutil.copytree(os.path.join(CRATES, crate, folder), os.path.join(copy, folder))
    done = subprocess.run(["rt", "fmt"], cwd=copy, capture_output=True, text=True)
    if done.returncode != 0:
        return [f"{crate}: rt fmt failed: {(done.stderr or done.stdout).strip().splitlines()[-1]}"]
    return [f"crates/{crate}/{file}: not in the layout of rt fmt" for file in sorted(files_of(copy))
            if not filecmp.cmp(os.path.join(copy, file), os.path.join(CRATES, crate, file), shallow=False)]


def main(crates):
    crates = crates or sorted(os.listdir(CRATES))
    with tempfile.TemporaryDirectory() as room, concurrent.futures.ThreadPoolExecutor(os.cpu_count()) as pool:
        shutil.copy(os.path.join(os.path.dirname(CRATES), "crates.txt"), room)
        found = [line for lines in pool.map(lambda crate: differing(crate, room), crates) for line in lines]
    for line in found:
        print(line)
    if not found:
        print(f"laid out: {len(crates)} crates")
    return 1 if found else 0


if __name__ == "__main__":
    sys.exit(main(sys.argv[1:]))
