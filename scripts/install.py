#!/usr/bin/env python3
"""Installs mpw, or removes what was installed.

  ./mpw install [--prefix DIR] [--sysconfdir DIR]
  ./mpw uninstall [--prefix DIR]

The prefix is /usr/local unless another is given. Programs that aren't built are proved and built first. The folder of the configuration
is /etc for /usr and /usr/local, else PREFIX/etc. With DESTDIR in the environment, everything goes below that folder. A file of the
configuration that was edited stays as it is: the new one is written next to it, with .new after its name.
"""
import argparse
import glob
import hashlib
import os
import subprocess
import sys
from contextlib import suppress

import installed_files
import versions

# The list of what was installed, below the prefix.
LIST = "share/mpw/installed"


def say(text):
    print(f"mpw: {text}", file=sys.stderr)


class Place:
    """A place with what was installed there before: paths with their sums, links and folders."""

    def __init__(self, prefix):
        self.below, self.list = os.environ.get("DESTDIR", "").rstrip("/"), f"{prefix}/{LIST}"
        self.files, self.folders = {}, []
        try:
            with open(self.at(self.list), encoding="utf-8") as file:
                for line in file:
                    kind, _, path = line.rstrip("\n").partition(" ")
                    if kind == "folder":
                        self.folders.append(path)
                    else:
                        self.files[path] = kind
        except FileNotFoundError:
            pass

    def at(self, path):
        return self.below + path

    def sum(self, path):
        """The sum of a file that is there, or nothing. A link has its target."""
        at = self.at(path)
        if os.path.islink(at):
            return f"link:{os.readlink(at)}"
        if not os.path.isfile(at):
            return None
        with open(at, "rb") as file:
            return hashlib.sha256(file.read()).hexdigest()

    def make_folder(self, path):
        """Makes a folder and those above it, and notes which are new."""
        if path == "/":
            os.makedirs(self.at(path), exist_ok=True)
        elif not os.path.isdir(self.at(path)):
            self.make_folder(os.path.dirname(path))
            os.mkdir(self.at(path), 0o755)
            os.chmod(self.at(path), 0o755)
            self.folders.append(path)

    def write(self, it):
        """Writes a file under another name and renames it, so that a program which runs isn't disturbed."""
        self.make_folder(os.path.dirname(it.path))
        beside = self.at(it.path) + ".mpw-new"
        if os.path.lexists(beside):
            os.remove(beside)
        if it.link is not None:
            os.symlink(it.link, beside)
        else:
            with open(beside, "wb") as file:
                file.write(it.data)
            os.chmod(beside, it.mode)
        os.replace(beside, self.at(it.path))

    def remove(self, path):
        """Removes a file."""
        at = self.at(path)
        if os.path.lexists(at):
            os.remove(at)

    def remove_empty(self, path):
        """Removes a folder if it is there and empty."""
        with suppress(OSError):
            os.rmdir(self.at(path))

    def clean(self):
        """Removes what Python compiled, and the folders that were made and are empty."""
        for path in self.files:
            folder, name = os.path.split(path)
            if name.endswith(".py"):
                for compiled in glob.glob(f"{glob.escape(self.at(folder))}/__pycache__/{name[:-3]}.*"):
                    os.remove(compiled)
                self.remove_empty(f"{folder}/__pycache__")
        for path in sorted(self.folders, key=len, reverse=True):
            self.remove_empty(path)

    def save(self):
        """Writes the list of what is installed."""
        lines = [f"{kind} {path}\n" for path, kind in sorted(self.files.items())] + [f"folder {path}\n" for path in self.folders]
        with open(self.at(self.list), "w", encoding="utf-8") as file:
            file.writelines(lines)


def install(prefix, sysconfdir, shown):
    paths, state = installed_files.present_programs()
    seconds = int(os.environ.get("SOURCE_DATE_EPOCH") or versions.commit_time())
    layout, place = installed_files.layout_of(prefix, sysconfdir), Place(prefix)
    before, place.files = place.files, {}
    for it in installed_files.files(layout, paths, state, seconds):
        found = place.sum(it.path)
        is_kept = it.is_edited and found not in (None, before.get(it.path), hashlib.sha256(it.data).hexdigest())
        if is_kept:
            say(f"{it.path} was edited, so it stays; the new one is {it.path}.new")
        written = it._replace(path=f"{it.path}.new") if is_kept else it
        place.write(written)
        place.files[written.path] = place.sum(written.path)
        if is_kept:
            place.files[it.path] = before.get(it.path, "unknown")
    for path in before.keys() - place.files.keys():
        place.remove(path)
    place.save()
    print(f"mpw {versions.version()} is installed in {shown}")
    if layout.python is None:
        print(f"import mpw_desk needs PYTHONPATH={shown}/share/mpw/python")
    if state != installed_files.PROVED:
        print(f"its programs are {state}")
    return 0


def uninstall(prefix, _, shown):
    place = Place(prefix)
    if not place.files:
        say(f"nothing is installed in {shown}")
        return 1
    for path, kind in sorted(place.files.items()):
        found = place.sum(path)
        if found is not None and found != kind and path.startswith(conf_folder(place)):
            say(f"{path} was edited, so it stays")
        else:
            place.remove(path)
    place.remove(place.list)
    place.clean()
    print(f"mpw is removed from {shown}")
    return 0


def conf_folder(place):
    """The folder of the configuration, of which a file may be edited."""
    return next((path[:-len("mpw/mpw.conf")] for path in place.files if path.endswith("/mpw/mpw.conf")), "/etc/")


def main(words):
    tasks = {"install": install, "uninstall": uninstall}
    made = argparse.ArgumentParser(prog="mpw", usage=__doc__.split("\n\n")[1].strip().replace("\n  ", "\n       "), description=__doc__.split("\n\n", 2)[2],
                                   allow_abbrev=False, formatter_class=argparse.RawDescriptionHelpFormatter)
    made.add_argument("task", choices=tasks, help=argparse.SUPPRESS)
    made.add_argument("--prefix", metavar="DIR", default="/usr/local", help="where the programs go (/usr/local)")
    made.add_argument("--sysconfdir", metavar="DIR", help="where the configuration goes")
    options = made.parse_args(words)
    try:
        absolute = [os.path.abspath(path) if path else None for path in (options.prefix, options.sysconfdir)]
        return tasks[options.task](*absolute, options.prefix)
    except installed_files.Unbuilt as fault:
        say(fault)
        return 70
    except OSError as fault:
        say(f"{fault.filename}: {fault.strerror}")
        return 1
    except subprocess.CalledProcessError as fault:
        say(f"{fault.cmd[0]} {fault.cmd[1]} ended with {fault.returncode}")
        return 1


if __name__ == "__main__":
    sys.exit(main(sys.argv[1:]))
