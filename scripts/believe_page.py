#!/usr/bin/env python3
"""Checks docs/what-to-believe.md, which has each definition that a reader must believe for the headline, with a sentence.

  scripts/believe_page.py            prints the table of its sections: definitions, lines, and minutes of reading aloud
  scripts/believe_page.py --write    writes that table into the page
  scripts/believe_page.py --check    prints the faults of the page, and exits with 1 if there is one

The page must name each definition that scripts/believed.py finds, once, in a row of its file, and no others. The file must have it. Its row
must come after those of the definitions that it uses, and have a sentence and a link to a page of the specification. A row without a file or
a link has those of the row above.
"""
import collections
import re
import sys

import believed
import cited

PAGE = "docs/what-to-believe.md"
BEGIN, END = "<!-- scripts/believe_page.py: begin -->", "<!-- end -->"
FILE = re.compile(r"\]\(\.\./(crates/[\w/]+\.antt)\)")
RULE = re.compile(r"\]\((specification/[^)]+)\)")
WORD = re.compile(r"[A-Z]?[a-z]+|[A-Z]+|\d+")
WORDS_A_MINUTE = 130

Row = collections.namedtuple("Row", "number section file names sentence rule")


def page_text():
    with open(f"{cited.TOP}/{PAGE}", encoding="utf-8") as page:
        return page.read()


def rows_of(text):
    """The rows of the page that name definitions, each with its line, its section, its file and its rule."""
    section = file = rule = None
    is_table = False
    for number, line in cited.prose_of(text):
        cells = [cell.strip() for cell in line.split("|")]
        if line.startswith("## "):
            section, file, rule = line[3:], None, None
        is_table = line.startswith("|") and (is_table or cells[1:3] == ["File", "Definitions"])
        if not is_table or len(cells) < 6 or cells[1] in ("File", "-"):
            continue
        file = found[1] if (found := FILE.search(cells[1])) else file
        rule = found[1] if (found := RULE.search(cells[4])) else rule
        yield Row(number, section, file, cited.QUOTED.findall(cells[2]), cells[3], rule)


def names_there(row):
    """The names of a row that its file has."""
    try:
        items = believed.items_in(row.file)[0]
    except OSError:
        return []
    return [name for name in row.names if name in items]


def lacking(row):
    """What a row lacks."""
    there = names_there(row)
    yield from (f"{row.file} has no {name}" for name in row.names if name not in there)
    if not row.names or not row.sentence or not row.rule:
        yield "a row needs definitions, a sentence and a link to the specification"


def needs(place):
    """All definitions that one leads to."""
    found, left = {place}, [place]
    for one in left:
        new = [other for other in believed.named_by(*one) if other not in found]
        found.update(new)
        left += new
    return found


def uses(place, other):
    """Whether a definition names another one, and not only a part of a record or a variable of that name."""
    items, _, modules = believed.items_in(place[0])
    text = re.sub(r"\b\w+ = ", "", "\n".join(items[place[1]]))
    words = (word.split(".") for word in believed.WORD.findall(text))
    return any(other[1] in (word[1:2] if word[0] in modules else word[:1]) for word in words) and place not in needs(other)


def early_names(places):
    """The definitions whose row comes before that of one that they use, each with that one."""
    for place, row in places.items():
        for other in believed.named_by(*place):
            if other in places and places[other].number > row.number and uses(place, other):
                yield row.number, f"{place[1]} uses {other[1]}, which comes later, in line {places[other].number}"


def faults():
    """The faults of the page, each with its line."""
    text, wanted = page_text(), believed.believed()
    found, places = [], {}
    for row in rows_of(text):
        found += [(row.number, fault) for fault in lacking(row)]
        for place in ((row.file, name) for name in names_there(row)):
            if place in places:
                found.append((row.number, f"{place[1]} is in line {places[place].number} too"))
            elif place not in wanted:
                found.append((row.number, f"the headline doesn't need {place[1]} of {place[0]}"))
            places.setdefault(place, row)
    found += early_names(places)
    found += [(1, f"no row names {name} of {file}") for file, name in wanted if (file, name) not in places]
    if with_table(text) != text:
        found.append((1, "the table of sections is old: scripts/believe_page.py --write"))
    return [f"{PAGE}:{number}: {fault}" for number, fault in sorted(found)]


def spoken(line):
    """How many words a line has if it is read aloud: of a row the names and the sentence, of a link its text. A name like `is_visible` has two."""
    cells = line.split("|")
    text = "|".join(cells[2:-2]) if line.startswith("|") and len(cells) >= 6 else line
    text = re.sub(r"\]\([^)]*\)", "]", text)
    return len(WORD.findall(text))


def sections_of(text):
    """The sections that have rows: the title, the number of definitions, their lines, and the words to read aloud."""
    names, lines, words = collections.Counter(), collections.Counter(), collections.Counter()
    section = None
    for _, line in cited.prose_of(text):
        section = line[3:] if line.startswith("## ") else section
        words[section] += spoken(line)
    for row in rows_of(text):
        there = names_there(row)
        names[row.section] += len(there)
        lines[row.section] += sum(len(believed.items_in(row.file)[0][name]) for name in there)
    return [(section, names[section], lines[section], words[section]) for section in names]


def table_of(text):
    """The table of sections."""
    sections = sections_of(text)
    rows = ["| Section | Definitions | Their lines | Minutes aloud |", "|-|-|-|-|"]
    rows += [f"| [{title}](#{cited.anchor_of(title)}) | {names} | {lines} | {round(words / WORDS_A_MINUTE, 1)} |" for title, names, lines, words in sections]
    names, lines, words = (sum(section[part] for section in sections) for part in (1, 2, 3))
    return "\n".join([*rows, f"| All | {names} | {lines} | {round(words / WORDS_A_MINUTE)} |"])


def with_table(text):
    """The page with its table made anew."""
    before, _, rest = text.partition(BEGIN)
    return f"{before}{BEGIN}\n{table_of(text)}\n{END}{rest.partition(END)[2]}"


def main(words):
    if words == ["--check"]:
        found = faults()
        print("".join(f"{fault}\n" for fault in found), end="")
        return 1 if found else 0
    if words == ["--write"]:
        text = with_table(page_text())
        with open(f"{cited.TOP}/{PAGE}", "w", encoding="utf-8") as page:
            page.write(text)
        return 0
    print(table_of(page_text()))
    return 0


if __name__ == "__main__":
    sys.exit(main(sys.argv[1:]))
