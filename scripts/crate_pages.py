#!/usr/bin/env python3
"""Checks the README of each product crate, and makes docs/clauses.md, the index of calls and clauses.

  scripts/crate_pages.py            prints the faults of the READMEs
  scripts/crate_pages.py --write    takes examples that are whole functions again from their files, and writes docs/clauses.md
  scripts/crate_pages.py --start CRATE   writes a README to begin with, which has a row for each call
  scripts/crate_pages.py --check    prints the faults, and exits with 1 if there is one or docs/clauses.md is old; scripts/cited.py does so too

Each crates/mpw_*/README.md has its crate's name as title, a line of links to its sections and to what explains them, and the sections of SECTIONS. Its example is a
block of code, found verbatim, up to indentation, in the file that the link before it leads to. It uses a call of the page, and the golden tests that
are named with it are of programs that use the file's crate.
A README of more than a screen keeps the first of its tables of calls. The others are in CLAUSES.md beside it, to which its section Clauses leads.
In a table of calls, each function of the first column is one of the crate's, and each clause of the second column is one of a function of its row.
Each public function of a library that has a clause must have a row.
Each mutant and each part of a golden test that docs/tests.md names must be there.
"""
import collections
import functools
import glob
import os
import re
import sys

import golden

TOP = os.path.dirname(os.path.dirname(os.path.abspath(__file__)))
INDEX, TESTS = "docs/clauses.md", "docs/tests.md"
SECTIONS = ("Example", "Clauses", "What only tests show", "What nothing shows")
CONTENTS = " · ".join([*(f"[{name}](#{name.lower().replace(' ', '-')})" for name in SECTIONS),
                       "[Words](../../docs/SPECIFICATION.md#words)", "[How to read a table](../../docs/proved.md#how-to-read-a-table)"])
HEAD = "| Call | Clause | What it says |"
# The most lines of a README: a screen, and the rows of its table.
MOST_LINES = 72
QUOTED = re.compile(r"`([^`]+)`")
PATH = re.compile(r"`((?:specs|src|proofs)/[\w/.-]+\.\w+)`(?! of `mpw_)(?! of its)")
GOLDEN = re.compile(r"`(gate_\w+)/(\w+)(?:: ([\w -]+))?`")
MUTANTS = re.compile(r"((?:`mpw_\w+`(?:, )?)+): ((?:`\w+`(?:, )?)+)")
EXAMPLE = re.compile(r"\]\(([^)#]+\.rt)\)[^\n]*\n(?:[^`\n][^\n]*\n)*\n```rust\n(.*?)^```", re.M | re.S)
CONTRACT = re.compile(r"\bfn (\w+)|\b(?:requires|ensures)(?: (\w+))? *\{")
BEFORE = """# Calls and clauses

Each public call and each law of the product's crates, with the names of its contract's clauses. The README of its crate, or CLAUSES.md beside it, says
what each clause says. `scripts/crate_pages.py` makes this page from these pages. [How to read a table](proved.md#how-to-read-a-table) explains the words.

- [The crates](#the-crates) · [Calls and laws](#calls-and-laws) · [Clauses by name](#clauses-by-name)
"""


def read(path):
    with open(f"{TOP}/{path}", encoding="utf-8") as file:
        return file.read()


def write(path, text):
    with open(f"{TOP}/{path}", "w", encoding="utf-8") as file:
        file.write(text)


@functools.cache
def subjects():
    """The product's crates by subject, as crates.txt has them."""
    found = {}
    for line in read("crates.txt").splitlines():
        if line.startswith("## "):
            subject = line[3:]
        elif line.startswith("mpw_"):
            found.setdefault(subject, []).append(line.partition(":")[0])
    return found


@functools.cache
def uses(crate):
    """The crates that one uses, with those that these use, and itself."""
    line = re.search(rf"^{crate}:(.*)$", read("crates.txt"), re.M)
    return {crate}.union(*(uses(other) for other in line[1].split())) if line else {crate}


def crates():
    return [crate for found in subjects().values() for crate in found]


def page_of(crate):
    return f"crates/{crate}/README.md"


def pages_of(crate):
    """The pages with a crate's tables of calls: its README, and CLAUSES.md if there is one."""
    more = f"crates/{crate}/CLAUSES.md"
    return [page_of(crate), more] if os.path.isfile(f"{TOP}/{more}") else [page_of(crate)]


def tables_of(crate):
    """The text of all these pages."""
    return "".join(map(read, pages_of(crate)))


def place_of(crate, number):
    """The page and the line there of a line of that text."""
    for page in pages_of(crate):
        lines = read(page).count("\n")
        if number <= lines:
            return f"{page}:{number}"
        number -= lines
    return f"{page_of(crate)}:1"


@functools.cache
def contracts_of(crate):
    """The functions of a crate, each with the names of its clauses."""
    found = collections.defaultdict(set)
    for path in glob.glob(f"crates/{crate}/src/**/*.rt", root_dir=TOP, recursive=True):
        name = None
        for part in CONTRACT.finditer(re.sub(r"^\s*//.*$", "", read(path), flags=re.M)):
            if part[1]:
                name = part[1]
            found[name].add(part[2])
    return found


@functools.cache
def owners_of(crate):
    """The functions of a crate, each with the types or traits that have it, and with nothing for a function of no type."""
    found = collections.defaultdict(set)
    for path in glob.glob(f"crates/{crate}/src/**/*.rt", root_dir=TOP, recursive=True):
        owner = ""
        for line in read(path).splitlines():
            begins = re.match(r"(?:impl\b(?:.* for)?(?:<.*?>)? |pub trait )(\w+)", line)
            function = re.match(r"( *)(?:pub(?:\([\w:]+\))? )?fn (\w+)", line)
            owner = begins[1] if begins else "" if line == "}" else owner
            if function:
                found[function[2]].add(owner if function[1] else "")
    return found


def exported_of(crate):
    """The functions and types that a library brings out."""
    path = f"crates/{crate}/src/lib.rt"
    found = set()
    for module, names in re.findall(r"^pub use ([\w:]+?)(?:::\{(.*?)\})?;", read(path) if os.path.isfile(f"{TOP}/{path}") else "", re.M | re.S):
        found.update(re.findall(r"\w+", names) if names else [module.split("::")[-1]])
    return found


def public_calls(crate):
    """The functions with a clause that a library brings out, alone or with their type; those of traits' implementations aren't among them."""
    exported = exported_of(crate)
    for path in glob.glob(f"crates/{crate}/src/**/*.rt", root_dir=TOP, recursive=True):
        owner = ""
        text = re.sub(r"^\s*//.*$", "", read(path), flags=re.M)
        for part in re.finditer(r"^(?:impl\b(?:<.*?>)? (\w+)|( *)pub fn (\w+)(.*?)^\2[{}]|\})", text, re.M | re.S):
            if part[3] and re.search(r"\b(?:requires|ensures)\b", part[4]) and (owner if part[2] else part[3]) in exported:
                yield f"{owner}::{part[3]}" if part[2] else part[3]
            owner = part[1] or owner


def with_owner(crate, path, before):
    """A function with the type that has it: the one before it in its cell, or the only one."""
    owners = owners_of(crate)[path]
    if "::" in path or "" in owners or not owners:
        return path
    owner = before if before in owners else next(iter(owners)) if len(owners) == 1 else ""
    return f"{owner}::{path}" if owner else path


def functions_in(cell):
    """The functions that a cell names, each with what is written before it, as the name of its type."""
    for quoted in QUOTED.findall(cell):
        path = re.sub(r"[(<].*", "", quoted)
        if re.fullmatch(r"(?:\w+::)*[a-z_]\w*", path) and not path.startswith("mpw_"):
            yield path


def rows_of(text):
    """The rows of a page's tables of calls: the line, the functions, the names of clauses, and whether these are a trait's."""
    functions, is_inside = [], False
    for number, line in enumerate(text.splitlines(), 1):
        if not line.startswith("|"):
            is_inside = False
        elif line == HEAD:
            is_inside = True
        elif is_inside and not line.startswith("|-"):
            call, clause = (cell.strip() for cell in line.split("|")[1:3])
            functions = list(functions_in(call)) if call else functions
            yield number, functions, QUOTED.findall(clause), "of the trait" in clause


def faults_of_tables(crate, text):
    """The calls and clauses of a page that its crate doesn't have."""
    contracts = contracts_of(crate)
    rows = list(rows_of(text))
    listed = {path.split("::")[-1] for _, functions, _, _ in rows for path in functions}
    yield from ((1, f"no row of {path}") for path in sorted(set(public_calls(crate))) if path.split("::")[-1] not in listed)
    for number, functions, clauses, is_of_trait in rows:
        names = [path.split("::")[-1] for path in functions]
        yield from ((number, f"{crate} has no function {name}") for name in names if name not in contracts)
        for owner, name in (path.split("::")[-2:] for path in functions if "::" in path):
            if (owner if owner[0].isupper() else "") not in owners_of(crate)[name]:
                yield number, f"{crate} has no function {owner}::{name}"
        has = set().union(*(contracts.get(name, ()) for name in names))
        if not is_of_trait:
            yield from ((number, f"no clause {clause} of {', '.join(names)}") for clause in clauses if clause not in has)


def is_excerpt(block, text):
    """Whether some lines of a text are those of the block, all indented by as many blanks more."""
    lines, found = text.splitlines(), block.splitlines()
    for start in range(len(lines) - len(found) + 1):
        by = len(lines[start]) - len(lines[start].lstrip())
        if all(line[by:] == other if other else not line.strip() for line, other in zip(lines[start:], found)):
            if all(line[:by].isspace() or not line[:by] for line in lines[start:start + len(found)]):
                return True
    return False


def function_in(text, name):
    """The first function of that name in a text, without its indentation; nothing if there is none."""
    lines = text.splitlines()
    for start, line in enumerate(lines):
        begins = re.match(rf"( *)(?:pub(?:\([\w:]+\))? )?fn {name}\b", line)
        if begins:
            end = next(number for number in range(start, len(lines)) if lines[number] in (begins[1] + "}", begins[1] + "{}"))
            return "".join(f"{line[len(begins[1]):]}\n" for line in lines[start:end + 1])
    return None


def with_example(crate, text):
    """A page with its example as the file has it now, if the example is a whole function."""
    example = EXAMPLE.search(text)
    begins = example and re.match(r"(?:pub(?:\([\w:]+\))? )?fn (\w+)", example[2])
    path = os.path.normpath(f"crates/{crate}/{example[1]}") if begins else ""
    if not os.path.isfile(f"{TOP}/{path}") or is_excerpt(example[2], read(path)):
        return text
    function = function_in(read(path), begins[1])
    return text[:example.start(2)] + function + text[example.end(2):] if function else text


def faults_of_example(crate, text):
    """What a page's example lacks."""
    example = EXAMPLE.search(text)
    if not example:
        yield 1, "no block of code after a link to its file"
        return
    path = os.path.normpath(f"crates/{crate}/{example[1]}")
    number = text[:example.start(2)].count("\n") + 1
    if not path.startswith("crates/") or not os.path.isfile(f"{TOP}/{path}"):
        yield number, f"no file {path}"
        return
    if not is_excerpt(example[2], read(path)):
        yield number, f"the example isn't in {path}: scripts/crate_pages.py --write takes a whole function again"
    sentence, own = text[text.rindex("## Example", 0, example.start(2)):example.start(2)], path.split("/")[1]
    programs = [program for program, _, _ in GOLDEN.findall(sentence) if own not in uses(program)]
    yield from ((number, f"{program} doesn't use {own}, whose example it runs") for program in programs)
    used = {path.split("::")[-1] for _, functions, _, _ in rows_of(tables_of(crate)) for path in functions}
    others = {other for name, other in re.findall(r"\b(\w+) as (\w+)", read(path)) if name in used}
    if not (used | others) & set(re.findall(r"\w+", example[2])):
        yield number, "the example uses no call of the page's tables"


def faults_of(crate):
    """The faults of a crate's page, each with its line."""
    if not os.path.isfile(f"{TOP}/{page_of(crate)}"):
        yield 1, "no such page"
        return
    text = read(page_of(crate))
    if not text.startswith(f"# {crate}\n"):
        yield 1, "its title isn't the crate's name"
    if CONTENTS not in text.splitlines():
        yield 1, f"no line {CONTENTS}"
    sections = tuple(re.findall(r"^## (.+)$", text, re.M))
    if sections != SECTIONS:
        yield 1, f"its sections aren't {', '.join(SECTIONS)}"
    if text.count("\n") > MOST_LINES:
        yield 1, f"it has more than {MOST_LINES} lines: move tables of calls to CLAUSES.md"
    if len(pages_of(crate)) > 1 and "](CLAUSES.md)" not in text:
        yield 1, "no link to CLAUSES.md"
    yield from faults_of_example(crate, text)
    yield from faults_of_tables(crate, tables_of(crate))
    yield from faults_of_names(crate, tables_of(crate))


def lost_tests(line):
    """The golden tests that a line names and that aren't there: a table of a program, with words of its lines."""
    for program, name, part in GOLDEN.findall(line):
        path = f"crates/{program}/stdin"
        tables = golden.parts(read(path)) if os.path.isfile(f"{TOP}/{path}") else {}
        if not all(word in tables.get(name, "") for word in part.split()) or name not in tables:
            yield f"no golden test {program}/{name}{': ' * bool(part)}{part}"


def lost_mutants(line):
    """The mutants that a line names and that no folder of their crates has."""
    for listed, names in MUTANTS.findall(line):
        for crate in QUOTED.findall(listed):
            for name in QUOTED.findall(names):
                if not any(os.path.isfile(f"{TOP}/crates/{crate}/{folder}/{name}.edit") for folder in ("must-fail", "audit")):
                    yield f"{crate} has no mutant {name}"


def faults_of_names(crate, text):
    """The files and golden tests that a page names and that aren't there: a file of another crate is one `of` that crate."""
    for number, line in enumerate(text.splitlines(), 1):
        yield from ((number, f"no {path} in {crate}") for path in PATH.findall(line) if not os.path.exists(f"{TOP}/crates/{crate}/{path}"))
        yield from ((number, fault) for fault in lost_tests(line))


def link_of(crate):
    return f"[{crate}](../{page_of(crate)})"


def calls_of(crate):
    """The calls of a crate's tables, each with the names of its clauses, in the order of the page."""
    found = {}
    for _, functions, clauses, _ in rows_of(tables_of(crate)):
        owner = ""
        for path in functions:
            path = with_owner(crate, path, owner)
            owner = path.rpartition("::")[0] or owner
            has = contracts_of(crate).get(path.split("::")[-1], ())
            names = found.setdefault(path, [])
            names += [clause for clause in dict.fromkeys(clauses) if clause in has and clause not in names]
    return found


def index():
    """The text of docs/clauses.md."""
    calls = [(path, crate, clauses) for crate in crates() for path, clauses in calls_of(crate).items()]
    by_clause = collections.defaultdict(lambda: collections.defaultdict(list))
    for path, crate, clauses in calls:
        for clause in clauses:
            by_clause[clause][crate].append(path)
    lines = [BEFORE, "## The crates", "", "| Subject | Crates |", "|-|-|"]
    lines += [f"| {subject} | {', '.join(link_of(crate) for crate in found)} |" for subject, found in subjects().items() if found]
    lines += ["", "## Calls and laws", "", "A dash stands for a call whose clauses have no name.", "", "| Call | Clauses | Crate |", "|-|-|-|"]
    for path, crate, clauses in sorted(calls, key=lambda call: (call[0].split("::")[-1], call[0], call[1])):
        lines.append(f"| `{path}` | {', '.join(f'`{clause}`' for clause in clauses) or '-'} | {link_of(crate)} |")
    lines += ["", "## Clauses by name", "", "| Clause | Calls |", "|-|-|"]
    for clause, found in sorted(by_clause.items()):
        places = "; ".join(f"{', '.join(f'`{path}`' for path in paths)} of {link_of(crate)}" for crate, paths in found.items())
        lines.append(f"| `{clause}` | {places} |")
    return "\n".join(lines) + "\n"


def faults():
    """The faults of all READMEs and of the index, a line each."""
    found = [f"{place_of(crate, number)}: {fault}" for crate in crates() for number, fault in faults_of(crate)]
    for number, line in enumerate(read(TESTS).splitlines(), 1):
        found += [f"{TESTS}:{number}: {fault}" for fault in (*lost_tests(line), *lost_mutants(line))]
    if not found and index() != read(INDEX):
        found = [f"{INDEX}:1: it is old: scripts/crate_pages.py --write"]
    return found


def start(crate):
    """A README to begin with, which has a row for each call."""
    calls = [(path, sorted(contracts_of(crate)[path.split("::")[-1]] - {None})) for path in dict.fromkeys(public_calls(crate))]
    rows = [f"| `{path}` | {', '.join(f'`{clause}`' for clause in clauses) or '-'} | TODO |" for path, clauses in calls]
    example = "TODO: what it shows, in [`FILE`](../FILE), which a golden test runs:\n\n```rust\n```"
    contents = (example, "\n".join((HEAD, "|-|-|-|", *rows)), "TODO", "TODO")
    sections = (f"## {name}\n\n{content}\n" for name, content in zip(SECTIONS, contents))
    return "\n".join((f"# {crate}\n\nThis crate TODO.\n\n{CONTENTS}\n", *sections))


def main(words):
    if words[:1] == ["--start"] and len(words) == 2 and not os.path.exists(f"{TOP}/{page_of(words[1])}"):
        write(page_of(words[1]), start(words[1]))
        return 0
    if words == ["--write"]:
        for crate in crates():
            write(page_of(crate), with_example(crate, read(page_of(crate))))
        write(INDEX, index())
        return 0
    found = faults()
    print("".join(f"{fault}\n" for fault in found), end="")
    return 1 if found and words == ["--check"] else 0


if __name__ == "__main__":
    sys.exit(main(sys.argv[1:]))
