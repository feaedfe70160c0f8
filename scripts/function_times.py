#!/usr/bin/env python3
"""Checks a crate from nothing with one job, and prints which functions, definitions and lemmas took the longest.

  scripts/function_times.py CRATE [MODULE..]     all modules of the crate where none is named

The checker writes a file in crates/CRATE/out/incremental as it ends with each part of a function, so the seconds between one file
and the next are those of a part: `Lts` is what the borrow checker states (it grows with the locals that are alive, the
branches, the drops and each `?`), `Proof` the search for the goals, `Answers` ours. What was checked before in that folder is lost.
Let nothing else run beside, since these are no processor seconds.
"""
import collections
import glob
import os
import shutil
import subprocess
import sys

TOP = os.path.dirname(os.path.dirname(os.path.abspath(__file__)))
MOST_TOLD = 40
PARTS_TOLD = 3


def parts(folder):
    """The name of each part that was checked, with the time when its file was written, in that order."""
    files = glob.glob(f"{folder}/**/*.oantt", recursive=True)
    return sorted((os.stat(it).st_mtime, os.path.basename(it).removesuffix(".oantt").removesuffix(".decls")) for it in files)


def place(part):
    """What a part belongs to, as a function of the crate, and which part of it that is."""
    words = part.split(".")
    last = max((at for at, word in enumerate(words) if at and word[0].islower()), default=len(words) - 1)
    return ".".join(words[1 : last + 1]) or part, ".".join(words[last + 1 :]) or "itself"


def spent(found):
    """The seconds of each part of each place."""
    taken = collections.defaultdict(collections.Counter)
    for (before, _), (at, part) in zip(found, found[1:]):
        name, which = place(part)
        taken[name][which] += at - before
    return taken


def tell(taken):
    for name, by_part in sorted(taken.items(), key=lambda it: -sum(it[1].values()))[:MOST_TOLD]:
        most = " ".join(f"{which} {it:.1f}" for which, it in by_part.most_common(PARTS_TOLD))
        print(f"{sum(by_part.values()):8.1f}  {name}: {most}")
    print(f"{sum(sum(it.values()) for it in taken.values()):8.1f}  in all, without the reading of the libraries")


def main(words):
    if not words:
        print(__doc__, file=sys.stderr)
        return 2
    folder = f"{TOP}/crates/{words[0]}"
    kept = f"{folder}/out/incremental"
    shutil.rmtree(kept, ignore_errors=True)
    only = [it for module in words[1:] for it in ("--only", module)]
    ran = subprocess.run(["rt", "check", "--jobs", "1", *only], cwd=folder, stdout=subprocess.PIPE, stderr=subprocess.STDOUT, check=False)
    tell(spent(parts(kept)))
    print("passed" if ran.returncode == 0 else "not passed")
    return ran.returncode


if __name__ == "__main__":
    sys.exit(main(sys.argv[1:]))
