#!/usr/bin/env python3
"""Prints the version, the commit and the toolchain of this repository.

  scripts/versions.py
  scripts/versions.py --check    prints where another version is named than in VERSION; the exit status is 1 if there is a place
"""
import json
import os
import re
import shutil
import subprocess
import sys
from contextlib import suppress

TOP = os.path.dirname(os.path.dirname(os.path.abspath(__file__)))


# What names the version of the file VERSION besides, each as the only match of a pattern: the programs, their contract, and the first section of the
# changes.
NAMED = {
    "crates/mpw_firm_options/src/options.rt": r'^pub const VERSION: &str = "([^"]*)";$',
    "crates/mpw_firm_options/specs/Commands.antt": r'^version_text command = command \+\+ codes " ([^"]*)\\n"$',
    "CHANGELOG.md": r"\A.*?^## (\S+)$",
}


def printed_by(*words):
    """What a command prints, without its last line feed, or nothing if it can't be run or fails."""
    if shutil.which(words[0]) is None:
        return ""
    ran = subprocess.run(words, cwd=TOP, stdin=subprocess.DEVNULL, stdout=subprocess.PIPE, stderr=subprocess.DEVNULL, text=True, check=False)
    return ran.stdout.strip() if ran.returncode == 0 else ""


def git(*words):
    """What git prints of this repository, whoever owns it."""
    return printed_by("git", "-c", f"safe.directory={TOP}", *words)


def version():
    """The version of the program, from the file VERSION."""
    with open(f"{TOP}/VERSION", encoding="ascii") as file:
        return file.read().strip()


def commit():
    """The commit of the sources, with -changed if a file isn't as the commit has it."""
    return git("describe", "--always", "--abbrev=12", "--dirty=-changed", "--exclude=*") or "unknown"


def commit_time():
    """When the commit was made, in seconds since 1970, or 0 if git doesn't say."""
    return int(git("log", "-1", "--format=%ct") or 0)


def toolchain():
    """The toolchain and its version. If it can't be run, as by another user, it is the one that built the desk's program."""
    found = printed_by("rt", "version")
    with suppress(OSError, ValueError, KeyError):
        with open(f"{TOP}/crates/mpw_main/out/rlib/kept", encoding="utf-8") as file:
            found = found or json.load(file)["toolchain"]
    return found.split(" ")[0] or "unknown"


def lines(programs=""):
    """What `mpw --version` prints. The last line says what the programs of an installation are."""
    found = [f"mpw {version()}", f"commit {commit()}", f"toolchain {toolchain()}"]
    return [*found, f"programs {programs}"] if programs else found


def faults():
    """The files that name another version, or none."""
    for path, pattern in NAMED.items():
        with open(f"{TOP}/{path}", encoding="utf-8") as file:
            found = re.findall(pattern, file.read(), re.M | re.S)
        if found != [version()]:
            yield f"{path}: the version is {', '.join(found) or 'missing'}, and VERSION has {version()}"


def main(words):
    if words == ["--check"]:
        found = list(faults())
        print("".join(f"{fault}\n" for fault in found), end="")
        return 1 if found else 0
    if words:
        print(__doc__, file=sys.stderr)
        return 2
    print("\n".join(lines()))
    return 0


if __name__ == "__main__":
    sys.exit(main(sys.argv[1:]))
