#!/usr/bin/env python3
"""Copies the package for KLayout, with the parts of the Python client that it needs.

  scripts/klayout_package.py FOLDER

The folder must not exist. Copy it into ~/.klayout/salt as mpw, or name it in an index of KLayout's package manager. The exit status is 0, or 2
with a message.
"""
import os
import shutil
import sys

TOP = os.path.dirname(os.path.dirname(os.path.abspath(__file__)))
PACKAGE, CLIENT = os.path.join(TOP, "integrations", "klayout"), os.path.join(TOP, "clients", "python")
IGNORED = shutil.ignore_patterns("__pycache__")


def copy_package(folder):
    """Copies the package to a folder that doesn't exist."""
    shutil.copytree(PACKAGE, folder, ignore=IGNORED)
    shutil.copytree(os.path.join(CLIENT, "mpw_desk"), os.path.join(folder, "python", "mpw_desk"), ignore=IGNORED)
    shutil.copy(os.path.join(CLIENT, "mpw_report.py"), os.path.join(folder, "python"))


def main(words):
    if len(words) != 1 or words[0].startswith("-"):
        print(__doc__.strip(), file=sys.stderr)
        return 2
    try:
        copy_package(words[0])
    except OSError as fault:
        print(f"{words[0]}: {fault.strerror or fault}", file=sys.stderr)
        return 2
    return 0


if __name__ == "__main__":
    sys.exit(main(sys.argv[1:]))
