"""The options and the commands of a page: which options no program has, and which commands no test runs.

A fenced block whose language is console is run by examples/pages.py, which compares what is printed with the page. Each other block that has a
command of ours needs a reason in UNTESTED. An option in a block or between backquotes must be one of its program, as docs/commands.md lists them, or of OTHERS.
"""
import functools
import os
import re
import sys

import option_tables

TOP = os.path.dirname(os.path.dirname(os.path.abspath(__file__)))
sys.path.insert(0, f"{TOP}/examples")

import pages  # noqa: E402

REFERENCE = "docs/commands.md"
# Blocks with commands that no test runs, by the page and the first word of the block's language, and why. A block that is indented has no language.
UNTESTED = {
    ("bench/README.md", "sh"): "proves for half an hour, and then needs the machine for itself",
    ("clients/python/README.md", ""): "clients/python/tests/test_readme.py and test_log.py run those of four sections; the others need a desk elsewhere",
    ("docs/checking.md", "sh"): "needs other hosts, or Slurm; examples/parallel.sh runs the same on one host",
    ("docs/checking.md", "make"): "examples/outputs.py runs it",
    ("docs/ci.md", "yaml"): "needs a runner of GitHub or GitLab; the page's console runs the script that it calls",
    ("docs/ci.md", "groovy"): "needs Jenkins; the page's console runs the script that it calls",
    ("docs/ci.md", "sh"): "builds a clone; the page's console runs the script that it calls",
    ("docs/deck.md", "sh"): "clients/python/tests/test_decks.py runs them, with a stand-in for mpw check",
    ("docs/install.md", ""): "needs root and systemd; scripts/try_package.py runs the same in a root folder of its own",
    ("docs/klayout.md", "python"): "needs a window of KLayout",
    ("docs/operating.md", "ini"): "needs root; the page's console runs the same service",
    ("examples/README.md", ""): "examples/check.py runs the shuttle, and gate_desk/scripts the first session",
    ("docs/operating.md", ""): "needs root, or a shuttle with markers, which docs/tutorial-shuttle.md has: its console runs such lines",
}
PROGRAMS = ("mpw", "mpw-ask", "mpw-assemble", "mpw-report", "mpw-page", "mpw-backup", "check.sh")
OURS = re.compile(r"(?:^|[\s;|(\"'/])(mpw|mpw-ask|mpw-assemble|mpw-report|mpw-page|mpw-backup|check\.sh)(?=\s)(?!\s*=)(.*)")
OPTION = re.compile(r"(?<![\w-])--[a-z][a-z-]*")
# What other programs' options are called, between backquotes or in a block, and what has them.
OTHERS = {
    "--jobs": "parallel, pip", "--dependency": "sbatch", "--no-install-recommends": "apt-get", "--strip-components": "tar",
    "--only": "rt check", "--allow-holes": "rt check", "--start": "rt check", "--generated": "rattle", "--incremental": "rattle", "--lib": "rattle",
    "--statements": "rattle", "--apply": "audit", "--record": "audit", "--check": "scripts that make pages and pictures", "--write": "scripts that make pages", "--times": "scripts/build.py",
    "--desk": "examples/check.py", "--wafers": "clients/python/test",
}
# What ./mpw takes before a command.
OWN = {"--unproved", "--help", "--version", "--prefix", "--sysconfdir"}


@functools.cache
def options():
    """The options of each command by its words."""
    return {command: option_tables.names_of(command) for command in (*option_tables.SOURCES, *option_tables.CLIENTS)}


def all_options():
    return set().union(*options().values()) | OWN | set(OTHERS)


def blocks_of(text):
    """The blocks of a page that aren't prose: the language, the number of the first line, and the lines. An indented block has no language."""
    found, language, lines, start = [], None, [], 0
    for number, line in enumerate(text.split("\n"), 1):
        if line.startswith("```"):
            if language is None:
                language, lines, start = line[3:].split(" ")[0], [], number
            else:
                found.append((language, start, lines))
                language = None
        elif language is not None:
            lines.append(line)
        elif line.startswith("    ") and not line.lstrip().startswith(("- ", "* ")):
            found.append(("", number, [line]))
    return found


def command_of(program, rest):
    """The command that a line asks, as the tables name it."""
    if program != "mpw":
        return program
    word = re.match(r"\s+(?:--unproved\s+)?(\w+)", rest)
    return f"mpw {word[1]}" if word else "mpw"


def wrong_options(program, rest):
    """The options of a command line that its program doesn't have."""
    command = command_of(program, rest)
    known = options().get(command)
    part = re.split(r"[|;<>&]|\$\(", rest)[0]
    return [option for option in OPTION.findall(part) if known is not None and option not in known | OWN]


def faults_in_blocks(page, text):
    """Commands that no test runs, and options that their program doesn't have."""
    for language, start, lines in blocks_of(text):
        asked = [(number, *found.groups()) for number, line in enumerate(lines, start + bool(language)) for found in OURS.finditer(line)]
        is_run = language == "console" and page in pages.PAGES
        if asked and not is_run and (page, language) not in UNTESTED:
            yield asked[0][0], "no test runs this command: make it console, add the page to examples/pages.py, or give a reason in scripts/commands_cited.py"
        for number, program, rest in asked:
            yield from ((number, f"{command_of(program, rest)} has no option {option}") for option in wrong_options(program, rest))


def faults_in_prose(text):
    """Options between backquotes that no program has."""
    is_inside = False
    for number, line in enumerate(text.split("\n"), 1):
        if line.startswith("```"):
            is_inside = not is_inside
        elif not is_inside:
            quoted = " ".join(re.findall(r"`([^`]+)`", line))
            yield from ((number, f"no program has the option {option}") for option in OPTION.findall(quoted) if option not in all_options())


def lacking_in_reference(text):
    """Options that the reference doesn't list."""
    lacking = sorted(option for option in all_options() - set(OTHERS) if option not in text)
    yield from ((1, f"the option {option} is missing") for option in lacking)


def faults_of(page, text):
    """The faults of a page, each with its line."""
    yield from faults_in_blocks(page, text)
    yield from faults_in_prose(text)
    if page == REFERENCE:
        yield from lacking_in_reference(text)
