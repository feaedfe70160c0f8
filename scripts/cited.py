#!/usr/bin/env python3
"""Prints the faults of the pages: files, definitions and links that don't exist, and faults of language. Exits with 1 if there is one.

  scripts/cited.py

In each page a link must lead to a file, and its anchor to a heading of that file. In the pages of NEWCOMERS and the READMEs of the crates, which are
written in plain English, a page of more than 4096 bytes must begin with links to its sections, no word of BANNED may be used, an option must be one that
docs/commands.md lists for its program and a command must be one that a test runs (scripts/commands_cited.py).

The READMEs of the crates and docs/clauses.md must be as scripts/crate_pages.py says. The diagrams and the rows of docs/architecture.md must be those of
crates.txt (scripts/diagrams.py), and the pictures of paths in docs/klayout.md those that examples/paths.py draws.

In README.md, CONTRIBUTING.md, docs/, the READMEs of the crates, examples/README.md and bench/README.md it looks at what is between backquotes:
- a path from the top of the tree, as `docs/deck.md`, or from crates/, as `mpw_hier/specs/Values.antt`;
- `specs/NAME.antt` of `mpw_crate`, and so `src/` and `proofs/`;
- `name` of `mpw_crate`, or `clause` of `name`, `mpw_crate`: of a function, a type or a clause, that must be in a source of that crate;
- after `crates/mpw_crate/specs` in a row's first column, `NAME.antt` in the others;
- in a column headed Definition(s), `crate/NAME` for crates/mpw_crate/specs/NAME.antt, with the names of definitions
  after it, or `mpw_crate/specs/NAME.antt`, with the names before it; that file must declare each of them that isn't a crate
  or a function;
- in CONTRIBUTING.md, `src/NAME.rt` of the crate that the line names last, and `NAME.rt` from the folder of the path before it.
"""
import functools
import glob
import os
import re
import sys

import commands_cited  # which adds examples/ to where modules are
import crate_pages
import diagrams
import paths

TOP = os.path.dirname(os.path.dirname(os.path.abspath(__file__)))
QUOTED = re.compile(r"`([^`]+)`")
PATH = re.compile(r"(?:[\w.-]+/)+[\w.-]+\.(?:rt|antt|md|py|txt|edit|deck|gds)$")
NAMES_OF_CRATE = re.compile(r"((?:`[A-Za-z][\w:]*`(?:, | and )?)+) (?:of|in) `(mpw_\w+|gate_\w+)`")
NAMES_AND_CRATE = re.compile(r"((?:`[A-Za-z][\w:]*`(?:, | and | of )?)+), \[?`((?:mpw|gate)_\w+)`")
OF_CRATE = re.compile(r"`((?:specs|src|proofs)/[\w/.-]+)`(?:,| and)? (?:of|in) `(mpw_\w+|gate_\w+)`")
FOLDER = re.compile(r"\| `(crates/\w+/specs)` \|")
FILE = re.compile(r"[\w/]+\.antt$")
OWN = ("specs/", "src/", "proofs/", "out/", "data/")
SHORT = re.compile(r"[a-z_]+(?:/[A-Z]\w*)+$")
NAME = re.compile(r"[A-Za-z]\w*$")

# Pages in plain English. Add a page here when it is rewritten.
NEWCOMERS = (
    "CHANGELOG.md", "CONTRIBUTING.md", "README.md", "bench/README.md", "docs/architecture.md", "docs/checking.md", "docs/ci.md", "docs/codes.md", "docs/commands.md", "docs/deck.md",
    "docs/faq.md", "docs/install.md", "docs/klayout.md", "docs/limits.md", "docs/not-proved.md", "docs/operating.md", "docs/proved.md", "docs/proved-in-short.md", "docs/proving.md", "docs/requests.md", "docs/tests.md",
    "docs/troubleshooting.md",
    "docs/tutorial-firm.md", "docs/tutorial-shuttle.md",
    "docs/words.md", "docs/what-to-believe.md",
    "docs/klayout-macros.md",
    "docs/decisions.md",
    "clients/python/README.md", "docs/SPECIFICATION.md", "examples/README.md", "docs/specification/desk.md", "docs/specification/gdsii.md",
    "docs/specification/geometry.md", "docs/specification/policy.md", "docs/specification/requests.md", "docs/specification/rules.md", "docs/specification/shelf.md",
    "docs/specification/store.md", "docs/specification/tiles.md", "docs/specification/views.md", "docs/specification/wafer.md",
)
# Pages whose links alone are checked.
LINKED = ("clients/python/README.md", "model/README.md")
LARGEST_WITHOUT_CONTENTS = 4096
LINK = re.compile(r"\[[^\]]*\]\(([^)\s]+)\)")
HEADING = re.compile(r"(#+) (.+)")
CODE = re.compile(r"`[^`]*`")
# What a page must not say, and what it says instead.
BANNED = {
    r"tells?|told|telling": "print, report, return, show",
    r"want of (?:memory|room)|(?:memory|room) (?:is|was) wanting": "out of memory",
    r"where there (?:is|are|was|were)": "if, when",
    r"stands? (?:in|beside|behind|below)": "is in, is next to",
    r"behind": "after",
    r"brings? (?:the|a) deck": "uploads the deck",
    r"keeps?|kept|keepers?|keeping": "store, stored, store writer",
    r"made ready|makes? ready|work(?:s|ed)? (?:\w+ ){0,3}off": "prepare, execute",
    r"rows? of tests": "decision table",
    r"(?:history|calls?) (?:so far )?(?:has|have) led": "the current state",
    r"wrong bod(?:y|ies)": "mutant",
    r"stored runs?": "golden test",
    r"asked of (?:its|the) caller": "precondition",
    r"by name": "in alphabetical (byte) order",
    r"(?:is|are|was|were) met by": "touches",
    r"alike": "identical up to translation, the same",
    r"things?": "elements, instances, flat shapes",
    r"reckon(?:s|ed|ing)?": "estimated",
    r"the system ends": "the kernel kills it (out of memory)",
    r"a firm's page|an auditor's page": "Checking a cell; Auditing a desk",
}
FORBIDDEN = [(re.compile(rf"\b(?:{words})\b", re.I), instead) for words, instead in BANNED.items()]


def pages():
    """The documents, by their paths from the top."""
    found = ["README.md", "CHANGELOG.md", "CONTRIBUTING.md", "examples/README.md", "bench/README.md"]
    found += glob.glob("docs/**/*.md", root_dir=TOP, recursive=True) + [path for name in ("README", "CLAUSES") for path in glob.glob(f"crates/*/{name}.md", root_dir=TOP)]
    return sorted(found)


def is_there(path):
    """Whether a path from the top, or from crates/, leads to something."""
    return any(os.path.exists(f"{TOP}/{base}{path}") for base in ("", "crates/", "docs/", "examples/", "bench/"))


def file_of(quoted):
    """The file of definitions that a quoted word names, from the top; nothing where it names none."""
    if SHORT.match(quoted):
        crate, rest = quoted.split("/", 1)
        return f"crates/mpw_{crate}/specs/{rest}.antt"
    if re.match(r"mpw_\w+/specs/[\w/]+\.antt$", quoted):
        return f"crates/{quoted}"
    return None


def declares(path, name):
    """Whether a file of definitions declares a name, as a definition, a type, a case or a part of one."""
    with open(f"{TOP}/{path}", encoding="utf-8") as file:
        text = file.read()
    return re.search(rf"^\s*(?:(?:abbrev|unfoldable|pub|record|data|def|open|theorem|alias)\s+)*{name}\b", text, re.M) is not None


@functools.cache
def others():
    """The names of all crates and of their functions."""
    found = set(os.listdir(f"{TOP}/crates"))
    for path in glob.glob(f"{TOP}/crates/*/src/**/*.rt", recursive=True):
        with open(path, encoding="utf-8") as file:
            found.update(re.findall(r"\bfn (\w+)", file.read()))
    return found


def missing_in_part(words):
    """What a part of a cell of definitions names that isn't there: a file, or a name that each of its files must declare."""
    places = [place for place, word in enumerate(words) if file_of(word)]
    if not places:
        return []
    files = [file_of(words[place]) for place in places]
    gone = [f"no file {file}" for file in files if not os.path.exists(f"{TOP}/{file}")]
    first, last = places[0], places[-1]
    names = words[last + 1:] if SHORT.match(words[last]) else words[:first]
    names = [name for name in names if NAME.match(name) and name not in others()]
    found = [(file, name) for file in files for name in names if not gone]
    return gone + [f"{file} declares no {name}" for file, name in found if not declares(file, name)]


def missing_in_cell(cell):
    """What a cell of definitions names that isn't there; its parts stand between semicolons."""
    return [fault for part in cell.split(";") for fault in missing_in_part(QUOTED.findall(part))]


@functools.cache
def words_of(crate):
    """The words of a crate's sources, definitions and proofs."""
    paths = [path for kind in ("rt", "antt") for path in glob.glob(f"{TOP}/crates/{crate}/*/**/*.{kind}", recursive=True)]
    found = set()
    for path in paths:
        with open(path, encoding="utf-8") as file:
            found.update(re.findall(r"\w+", file.read()))
    return found


def missing_names(line):
    """The names of a crate that its sources don't have."""
    for listed, crate in NAMES_OF_CRATE.findall(line) + NAMES_AND_CRATE.findall(line):
        for name in QUOTED.findall(listed):
            if not name.startswith(("mpw_", "gate_")) and not words_of(crate).issuperset(name.split("::")):
                yield f"{crate} has no {name}"


def missing_in_line(line):
    """What a line names by its path that isn't there."""
    for path, crate in OF_CRATE.findall(line):
        if not os.path.exists(f"{TOP}/crates/{crate}/{path}"):
            yield f"no {path} in {crate}"
    yield from missing_names(line)
    folder = FOLDER.match(line)
    for quoted in QUOTED.findall(line):
        if folder and FILE.match(quoted):
            if not os.path.exists(f"{TOP}/{folder[1]}/{quoted}"):
                yield f"no file {folder[1]}/{quoted}"
        elif PATH.match(quoted) and not quoted.startswith(OWN) and not is_there(quoted):
            yield f"no file {quoted}"


def missing_in_steps(text):
    """The files that a step names by its crate or by the path before it, and that aren't there, each with its line."""
    for number, line in enumerate(text.splitlines(), 1):
        crate = folder = None
        for quoted in QUOTED.findall(line):
            named = re.match(r"(?:mpw|gate)_\w+(?=/|$)", quoted)
            crate = f"crates/{named[0]}" if named else crate
            path = f"crates/{quoted}" if named else f"{crate}/{quoted}" if crate and quoted.startswith(OWN) else None
            if re.fullmatch(r"\w+\.\w+", quoted) and folder:
                path = f"{folder}/{quoted}"
            elif PATH.match(quoted) and not path:
                path = quoted
            if path and not is_there(path):
                yield number, f"no file {path}"
            folder = os.path.dirname(path) if path else folder


def missing_in_page(text):
    """The lines of a document at which something is named that isn't there, each with what."""
    defined = None
    for number, line in enumerate(text.splitlines(), 1):
        cells = [cell.strip() for cell in line.split("|")]
        if not line.startswith("|"):
            defined = None
        elif any(cell in ("Definition", "Definitions") for cell in cells):
            defined = next(i for i, cell in enumerate(cells) if cell.startswith("Definition"))
        elif defined is not None and defined < len(cells):
            yield from ((number, fault) for fault in missing_in_cell(cells[defined]))
        yield from ((number, fault) for fault in missing_in_line(line))


def prose_of(text):
    """The numbered lines of a page outside of fenced blocks."""
    is_inside = False
    for number, line in enumerate(text.splitlines(), 1):
        if line.startswith("```"):
            is_inside = not is_inside
        elif not is_inside:
            yield number, line


def anchor_of(heading):
    """The anchor of a heading, as GitHub makes it."""
    return re.sub(r"[^\w\- ]", "", CODE.sub(lambda code: code[0][1:-1], heading).strip().lower()).replace(" ", "-")


def headings_of(text):
    """The headings of a page, each with its line, its level and its anchor; one that was there before gets a number."""
    seen = {}
    for number, line in prose_of(text):
        heading = HEADING.fullmatch(line)
        if heading:
            anchor = anchor_of(heading[2])
            seen[anchor] = seen.get(anchor, -1) + 1
            yield number, len(heading[1]), f"{anchor}-{seen[anchor]}" if seen[anchor] else anchor


@functools.cache
def anchors_of(path):
    with open(path, encoding="utf-8") as file:
        return {anchor for _, _, anchor in headings_of(file.read())}


def broken_links(page, text):
    """The links of a page that lead nowhere."""
    for number, line in prose_of(text):
        for target in LINK.findall(CODE.sub("", line)):
            path, _, anchor = target.partition("#")
            if "://" in path or path.startswith("mailto:"):
                continue
            path = os.path.normpath(os.path.join(TOP, os.path.dirname(page), path)) if path else f"{TOP}/{page}"
            if not os.path.exists(path):
                yield number, f"the link {target} leads to no file"
            elif anchor and (not path.endswith(".md") or anchor not in anchors_of(path)):
                yield number, f"the link {target} leads to no heading"


def missing_contents(text):
    """The sections of a large page that no link before the first section leads to."""
    sections = [(number, anchor) for number, level, anchor in headings_of(text) if level == 2]
    if len(text.encode()) <= LARGEST_WITHOUT_CONTENTS:
        return
    if not sections:
        yield 1, f"more than {LARGEST_WITHOUT_CONTENTS} bytes without a section"
        return
    linked = {target for number, line in prose_of(text) if number < sections[0][0] for target in LINK.findall(line)}
    yield from ((number, f"no link to #{anchor} before the first section") for number, anchor in sections if f"#{anchor}" not in linked)


def banned_words(text):
    """The words of a page that BANNED has, outside of code and of the targets of links."""
    for number, line in prose_of(text):
        line = re.sub(r"\]\([^)]*\)", "]", CODE.sub("", line))
        for pattern, instead in FORBIDDEN:
            yield from ((number, f"'{found[0]}': write {instead}") for found in pattern.finditer(line))


def missing_version(text):
    """What CHANGELOG.md lacks: a section of the version in VERSION."""
    with open(f"{TOP}/VERSION", encoding="utf-8") as file:
        version = file.read().strip()
    if f"## {version}" not in text.splitlines():
        yield 1, f"no section of version {version}"


def faults_of(page):
    """The faults of a page, each with its line."""
    with open(f"{TOP}/{page}", encoding="utf-8") as file:
        text = file.read()
    yield from broken_links(page, text)
    if page not in LINKED:
        yield from missing_in_page(text)
    if page == "CONTRIBUTING.md":
        yield from missing_in_steps(text)
    if page == "CHANGELOG.md":
        yield from missing_version(text)
    if page in NEWCOMERS or page.startswith("crates/"):
        yield from missing_contents(text)
        yield from banned_words(text)
        yield from commands_cited.faults_of(page, text)


def main():
    """Prints the faults, a line each."""
    faults = [f"{page}:{number}: {fault}" for page in sorted([*pages(), *LINKED]) for number, fault in faults_of(page)]
    faults += crate_pages.faults() + diagrams.faults() + paths.faults()
    print("".join(f"{fault}\n" for fault in faults), end="")
    sys.exit(1 if faults else 0)


if __name__ == "__main__":
    main()
