"""The help that programs print, taken apart: usage, text, options and what follows. Manual pages and completion are made from it.

A help text is a list of blocks with an empty line between them. A block of options has a title that ends with a colon, and an option
in each line; `clap` and Python's `argparse` both write it so.
"""
import os
import re
import subprocess
import sys
from typing import NamedTuple

# What a program is given so that it doesn't break the lines of its help.
WIDE = {"COLUMNS": "10000"}
# The commands of the desk: their help goes to the standard error with status 2, since the standard output has replies alone.
TO_STANDARD_ERROR = {"script", "serve"}
# Values of options, and arguments, that are files.
FILES = {"FILE", "OUT", "DECK", "PART", "STORE", "OUT.html", "OUT.gds", "LISTING"}


class Option(NamedTuple):
    """An option or an argument. An argument has no names."""

    names: tuple
    value: str
    help: str

    @property
    def is_file(self):
        return self.value.rstrip(".").strip("[]<>") in FILES


class Help(NamedTuple):
    """A help text: usages, blocks of text before the options, groups of options with their titles, and blocks after them."""

    usages: list
    about: list
    groups: list
    after: list

    @property
    def options(self):
        """All that have names."""
        return [it for _, listed in self.groups for it in listed if it.names]


def option_of(form, text, usage=""):
    """An option by its form, as `-d, --deck <DECK>`, and its help. A value that the form lacks is that of the usage."""
    form = re.sub(r"[<>]", "", form)
    names = tuple(re.findall(r"(?<![\w-])--?[\w-]+", form)) if form.startswith("-") else ()
    if not names:
        return Option((), form, text.strip())
    value = form.rpartition(names[-1])[2].strip() or "".join(re.findall(rf"\[{names[-1]} ([^\]]+)\]", usage))
    return Option(names, value, text.strip())


def options_in(lines, usage=""):
    """The options of a block, each of which may go on in lines that are indented further."""
    found = []
    for line in lines:
        form = line.strip()
        if form.startswith("-") or len(line) - len(line.lstrip()) <= 4:
            form, _, text = form.partition("  ")
            found.append([form, text])
        else:
            found[-1][1] += " " + form
    return [option_of(*it, usage) for it in found]


def is_group(block):
    """Whether a block lists options or arguments."""
    rest = block[1:]
    is_listed = rest and all(line.startswith("  ") for line in rest)
    return bool(is_listed and block[0].endswith(":") and (rest[0].strip().startswith("-") or "rguments" in block[0]))


def read_help(text):
    """Takes a help text apart."""
    blocks = [block.split("\n") for block in re.split(r"\n\s*\n", text.strip("\n"))]
    found = Help([], [], [], [])
    for block in blocks:
        if block[0].lower().startswith("usage:"):
            found.usages.extend(line.strip() for line in [block[0][6:], *block[1:]])
        elif all(line.startswith("  --") for line in block):
            found.groups.append(("Options", options_in(block, " ".join(found.usages))))
        elif is_group(block):
            found.groups.append((block[0].rstrip(":").capitalize(), options_in(block[1:])))
        else:
            (found.after if found.groups else found.about).append(block)
    return found


def printed(words, **more):
    """What a command prints, which has to succeed."""
    return subprocess.run(words, env={**os.environ, **WIDE}, stdin=subprocess.DEVNULL, stdout=subprocess.PIPE, text=True, check=True, **more).stdout


def help_of(program, command):
    """The help of a command of a program, under the name mpw."""
    words, silent = ["mpw", command, "--help"], {"stdin": subprocess.DEVNULL, "check": False}
    ran = subprocess.run(words, executable=program, env={**os.environ, **WIDE}, stdout=subprocess.PIPE, stderr=subprocess.PIPE, text=True, **silent)
    text, status = (ran.stderr, 2) if command in TO_STANDARD_ERROR else (ran.stdout, 0)
    if ran.returncode != status:
        raise subprocess.CalledProcessError(ran.returncode, words, ran.stdout, ran.stderr)
    return read_help(text)


def with_options(help, rows):
    """A help with more options, each by its form and its meaning."""
    return help._replace(groups=[*help.groups, ("Options of the client", [option_of(form, text) for form, text in rows])])


def help_of_tool(path):
    """The help of a tool in Python."""
    return read_help(printed([sys.executable, "-SB", path, "--help"]))
