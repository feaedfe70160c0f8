#!/usr/bin/env python3
"""Lists the definitions that a reader has to believe for the headline, by file, with their lines.

  scripts/believed.py            prints the table
  scripts/believed.py --write    puts it into docs/proved.md
  scripts/believed.py --check    exits with 1 if the table there is old
  scripts/believed.py NAME..     prints how the headline's table leads to these definitions

It begins with the definitions that the tables under "The headline, word by word" in docs/proved.md name, and goes on to each that one of
them names, in any crate of the repository. Instead of a computed test it takes the law that says exactly when the test is true. Blank lines,
comments and imports don't count. The toolchain's definitions don't count either, nor what the checker makes of types in src/.
"""
import collections
import functools
import os
import re
import sys

import cited

TOP = cited.TOP
PAGE = f"{TOP}/docs/proved.md"
HEAD, BEGIN, END = "## The headline, word by word", "<!-- scripts/believed.py: begin -->", "<!-- end -->"
# Computed tests, each with the law, or the relation of a law, that a reader may believe instead: the law says exactly when the test is true.
LAWS = {
    ("mpw_run/specs/Same.antt", "same_snapshot"): ("mpw_run/specs/Laws.antt", "TestsAreExact"),
    ("mpw_run/specs/Same.antt", "same_tile_job"): ("mpw_run/specs/Laws.antt", "TestsAreExact"),
    ("mpw_run/specs/Stitching.antt", "stitched"): ("mpw_run/specs/Laws.antt", "StitchedComputes"),
    ("mpw_geom/specs/Links.antt", "leads"): ("mpw_geom/specs/Links.antt", "Leads"),
    ("mpw_hier/specs/Reach.antt", "is_cyclic"): ("mpw_hier/specs/Reach.antt", "CyclesAreFound"),
    ("mpw_hier/specs/Reach.antt", "external_names"): ("mpw_hier/specs/Reach.antt", "NamesOutsideAreFound"),
    ("mpw_hier/specs/Reach.antt", "is_far"): ("mpw_hier/specs/Reach.antt", "FarExtentsAreFound"),
    ("mpw_requests/specs/Parts.antt", "request_of"): ("mpw_requests/specs/Parts.antt", "RequestsHaveTheirParts"),
    ("mpw_requests/specs/Parts.antt", "upload_of"): ("mpw_requests/specs/Parts.antt", "RequestsHaveTheirParts"),
}
ITEM = re.compile(r"(?:(?:pub|abbrev|unfoldable|opaque|record|data)\s+)+(?P<name>[^\s:({]+)")
USE = re.compile(r"^(?:pub )?use (?P<path>[\w.]+?)(?:\.\{(?P<names>[^}]*)\})?(?: as (?P<alias>[\w.]+))?\s*$", re.S)
WORD = re.compile(r"[^\s(){}\[\],;=λ]+")
JOIN = "◌>>=◌"


def module_path(path):
    """The file of a module of definitions of ours; nothing for others."""
    parts = path.split(".")
    if parts[0] != "Rattle" or len(parts) < 4 or parts[2] != "specs":
        return None
    found = f"crates/{parts[1]}/specs/{'/'.join(parts[3:])}.antt"
    return found if os.path.isfile(f"{TOP}/{found}") else None


def uses_in(text):
    """The names that a file imports, each with file and name there; and its other names of whole modules, each with its file."""
    names, modules = {}, {}
    for use in re.findall(r"^(?:pub )?use [^\n]*(?:\n[ }][^\n]*)*", text, re.M):
        found = USE.match(use)
        file = found and module_path(found["path"])
        if not file:
            continue
        if found["names"] is None:
            modules[found["alias"] or found["path"].split(".")[-1]] = file
            continue
        for part in found["names"].split(","):
            name, _, other = (it.strip() for it in part.partition(" as "))
            names[other or name] = (file, name)
    return names, modules


@functools.cache
def items_in(file):
    """The definitions of a file: each name with the lines of its text. Those in a module with parameters count like those outside."""
    with open(f"{TOP}/{file}", encoding="utf-8") as page:
        text = page.read()
    found, name = collections.defaultdict(list), None
    for line in re.sub(r"^(?:pub )?use [^\n]*(?:\n[ }][^\n]*)*", "", text, flags=re.M).split("\n"):
        bare = line.strip()
        if not bare or bare.startswith("--"):
            continue
        begins = ITEM.match(bare) if len(line) - len(line.lstrip()) <= 2 and not bare.startswith("pub mod") else None
        is_field = begins and re.match(r"pub [^\s:]+ :", bare) and name and line.startswith("  ")
        if begins and not is_field:
            name = begins["name"]
        elif re.match(r"(pub )?(module|mod)\b", line):
            name = None
        if name:
            found[name].append(line)
    return dict(found), *uses_in(text)


def cases_of(file):
    """The cases of the data types of a file, each with its type."""
    found = {}
    for name, lines in items_in(file)[0].items():
        if " data " in f" {lines[0]} ":
            found.update({it[1]: name for line in lines[1:] if (it := re.match(r"\s+([^\s:]+) :", line))})
    return found


def named_by(file, name):
    """The definitions that one names; the law of a test instead of the test."""
    for there, found in names_in(file, name):
        law = LAWS.get((there.removeprefix("crates/"), found))
        if not law:
            yield there, found
        elif f"crates/{law[0]}" != file or law[1] != name:
            yield f"crates/{law[0]}", law[1]


def home_of(file, name):
    """Where a definition is that a file may only import, and hand on by `pub use`."""
    items, names, _ = items_in(file)
    return home_of(*names[name]) if name not in items and name in names else (file, name)


def names_in(file, name):
    """The definitions that one names. A `do` names the operator that joins its parts."""
    items, names, modules = items_in(file)
    cases = cases_of(file)
    text = "\n".join(items.get(name, []))
    if name != JOIN and ("←" in text or " >>= " in text):
        yield home_of(file, JOIN)
    for word in set(WORD.findall(text)):
        for part in {word, word.split(".")[0]}:
            if part in items and part != name:
                yield file, part
            elif part in cases and cases[part] != name:
                yield file, cases[part]
            elif part in names:
                there, found = home_of(*names[part])
                yield there, cases_of(there).get(found, found)
        first, _, rest = word.partition(".")
        if rest and first in modules:
            there, found = modules[first], rest.split(".")[0]
            yield there, cases_of(there).get(found, found)


def seeds():
    """The definitions that the headline's table names."""
    with open(PAGE, encoding="utf-8") as page:
        table = page.read().partition(HEAD)[2].partition("\n## ")[0]
    for line in table.splitlines():
        if not line.startswith("|"):
            continue
        for part in line.split("|")[-2].split(";"):
            words = cited.QUOTED.findall(part)
            files = [cited.file_of(word) for word in words if cited.file_of(word)]
            for word in words:
                for file in files:
                    if not cited.file_of(word) and word in items_in(file)[0] and (file.removeprefix("crates/"), word) not in LAWS:
                        yield file, word


def believed():
    """All definitions that these lead to, each with the one that names it."""
    found = {seed: None for seed in seeds()}
    left = list(found)
    for place in left:
        for other in named_by(*place):
            if other[1] in items_in(other[0])[0] and other not in found:
                found[other] = place
                left.append(other)
    return found


def table_of(found):
    """The table of files with the definitions and their lines."""
    lines, names = collections.Counter(), collections.Counter()
    for file, name in found:
        lines[file] += len(items_in(file)[0][name])
        names[file] += 1
    crates = collections.defaultdict(list)
    for file in sorted(lines):
        crates[file.split("/")[1]].append(f"`{file.split('/specs/')[1].removesuffix('.antt')}` {lines[file]}")
    rows = ["| Crate | Lines of definitions, by files of its `specs/` | Together |", "|-|-|-|"]
    for crate, files in crates.items():
        total = sum(number for file, number in lines.items() if file.startswith(f"crates/{crate}/"))
        rows.append(f"| [{crate}](../crates/{crate}/README.md) | {', '.join(files)} | {total} |")
    rows.append(f"| {len(crates)} crates | {len(lines)} files, {sum(names.values())} definitions | {sum(lines.values())} |")
    return "\n".join(rows)


def main(words):
    found = believed()
    if words and not words[0].startswith("-"):
        for place in found:
            if place[1] in words:
                way = []
                while place:
                    way.append(f"{place[1]} ({place[0]})")
                    place = found[place]
                print(" < ".join(way))
        return 0
    table = table_of(found)
    if not words:
        print(table)
        return 0
    with open(PAGE, encoding="utf-8") as page:
        text = page.read()
    before, _, rest = text.partition(BEGIN)
    whole = f"{before}{BEGIN}\n{table}\n{END}{rest.partition(END)[2]}"
    if words == ["--write"] and rest:
        with open(PAGE, "w", encoding="utf-8") as page:
            page.write(whole)
        return 0
    if whole != text:
        print("docs/proved.md: the table of definitions is old: scripts/believed.py --write")
        return 1
    return 0


if __name__ == "__main__":
    sys.exit(main(sys.argv[1:]))
