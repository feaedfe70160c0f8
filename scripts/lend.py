#!/usr/bin/env python3
"""Gives a clone the libraries that were proved in others.

  scripts/lend.py TARGET SOURCE..

A library is lent where its crate's texts, and those of all crates below, are the same in both clones, and where a build wrote its sum
beside it (`rt check` or `./mpw build`), or a log SOURCE.log of `rt ci` says that it was proved. It is lent by links, so it takes no room, or by copies from another
disk. Lend from clones whose libraries were built over one another: the checker refuses one that was built over another build.
"""
import importlib.machinery
import importlib.util
import os
import re
import shutil
import subprocess
import sys

HERE = os.path.dirname(os.path.abspath(__file__))


def toolchain():
    """The toolchain's rt, by the script beside this one, which reads a program's files too."""
    loader = importlib.machinery.SourceFileLoader("quick_rt", os.path.join(HERE, "rt"))
    module = importlib.util.module_from_spec(importlib.util.spec_from_loader("quick_rt", loader))
    loader.exec_module(module)
    rt = module.loaded()
    made = rt.rtlib.Crate.__init__

    def make(self, *given, **named):
        made(self, *given, **named)
        rt.read_files(self)

    rt.rtlib.Crate.__init__ = make
    return rt.rtlib


def proved_in(source):
    """The crates that a gate's log beside a clone says were proved."""
    try:
        with open(f"{source}.log", encoding="utf-8", errors="replace") as log:
            return set(re.findall(r"^rt: (\w+) (?:proved|is kept: .*)$", log.read(), re.M))
    except OSError:
        return set()


def built_in(source):
    """The crates whose libraries `./mpw build` proved in a clone, by that clone's own scripts/build.py."""
    loader = importlib.machinery.SourceFileLoader("build", f"{source}/scripts/build.py")
    build = importlib.util.module_from_spec(importlib.util.spec_from_loader("build", loader))
    loader.exec_module(build)
    # The folder of a crate that is gone may still have its out/.
    tools, names = build.Toolchain(), sorted(it for it in os.listdir(f"{source}/crates") if os.path.isdir(f"{source}/crates/{it}/src"))
    return {it.name for it in build.crates_of(*names) if not it.is_program and it.is_kept(tools)}


def lend(crate, other):
    """Links a library, or copies it from another disk, and writes its sum beside it."""
    source, to = f"{other.folder}/out/rlib", f"{crate.folder}/out/rlib"
    shutil.rmtree(to, ignore_errors=True)
    os.makedirs(os.path.dirname(to), exist_ok=True)
    alike = os.stat(source).st_dev == os.stat(os.path.dirname(to)).st_dev
    subprocess.run(["cp", "-al" if alike else "-a", source, to], check=True)
    for name in ("stamp", "kept"):
        if os.path.exists(f"{to}/{name}"):
            os.remove(f"{to}/{name}")
    with open(f"{to}/stamp", "w", encoding="utf-8") as file:
        file.write(crate.stamp())


def main(words):
    if len(words) < 2:
        print(__doc__, file=sys.stderr)
        return 2
    rtlib = toolchain()
    target, *sources = (os.path.realpath(it) for it in words)
    mine = {it.name: it for it in rtlib.crates_below(target)}
    for source in sources:
        theirs, proved = {it.name: it for it in rtlib.crates_below(source)}, proved_in(source) | built_in(source)
        for name, crate in mine.items():
            other = theirs.get(name)
            is_there = other and os.path.isdir(other.rlib) and (name in proved or other.is_built())
            if is_there and not crate.is_built() and other.stamp() == crate.stamp():
                lend(crate, other)
    lacking = [name for name, crate in mine.items() if not crate.is_built()]
    print(f"{len(mine) - len(lacking)} of {len(mine)} libraries are there; not: {' '.join(lacking)}")
    return 0


if __name__ == "__main__":
    sys.exit(main(sys.argv[1:]))
