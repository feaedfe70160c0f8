#!/usr/bin/env python3
"""Makes the tables of docs/requests.md, docs/codes.md, docs/commands.md and CONTRIBUTING.md, and what the golden test of `mpw help` has to print.

  scripts/help_tables.py            writes them
  scripts/help_tables.py --check    prints what differs, and which request, denial or code of the sources the table lacks

Requests, denials, codes and exit statuses come from the table of `mpw help` (crates/mpw_help/src), and options from the programs'
sources (scripts/option_tables.py). On a page a table is between `<!-- made: NAME -->` and `<!-- end -->`. What is around it is written by hand.
"""
import os
import re
import sys

import golden
import option_tables

TOP = os.path.dirname(os.path.dirname(os.path.abspath(__file__)))
PAGES = ("docs/requests.md", "docs/codes.md", "docs/commands.md", "CONTRIBUTING.md")
MADE = re.compile(r"<!-- made: ([^\n]+) -->\n(.*?)<!-- end -->\n", re.DOTALL)
# The golden test of the help is a table of this program's.
RUN, TABLE = "gate_texts", "help"
# How a kind of entry is shown in a table: its columns, and the fields after the meaning.
KINDS = {
    "Request": (("Request", "What it does", "Tests in order", "Reply"), ("tests", "reply")),
    "Command": (("Command", "What it does", "Exit status"), ("statuses",)),
    "Denial": (("Denial", "When", "What to do"), ("remedy",)),
    "Refusal": (("Code", "When", "What to do"), ("remedy",)),
}
# The numbers of codes by what they are about: the first and the last one.
GROUPS = ((1, 19, "a library's text; 17 is out of memory"), (20, 29, "limits, and what is shown"), (30, 39, "the desk's state: what is there already, isn't, or goes on"),
          (40, 49, "lines, markers, the history"), (50, 59, "a deck's text"), (60, 69, "the store"))


def whole(path):
    """What a file has."""
    with open(f"{TOP}/{path}", encoding="utf-8") as file:
        return file.read()


def read(path):
    """What a file has; texts that go on after a backslash in the next line are joined."""
    return re.sub(r"\\\n\s*", "", whole(path))


def entries_of(module, name):
    """The entries of a list of the table: each field's text by its name, and the kind."""
    text = read(f"crates/mpw_help/src/{module}.rt")
    static = re.search(rf"fn {name}\(\) -> &'static \[Entry\] {{\n    &(\w+)\n", text)[1]
    start = text.index(f"static {static}: [Entry;")
    parts = re.split(r"\bEntry \{\n", text[start : text.index("\n];\n", start)])[1:]
    return [dict(re.findall(r'(\w+):\s*"([^"]*)"', part), kind=re.search(r"Detail::(\w+)", part)[1]) for part in parts]


def tables():
    """The tables in their order, each a title with its entries."""
    listed = re.findall(r'title: "([^"]*)",\s*entries: (\w+)::(\w+)\(\)', read("crates/mpw_help/src/lib.rt"))
    return [(title, entries_of(module, name)) for title, module, name in listed]


def table_of(title, entries):
    head, columns = KINDS[entries[0]["kind"]]
    rows = ["", "## " + title, "", "| " + " | ".join(head) + " |", "|" + "-|" * len(head)]
    for entry in entries:
        cells = [f"`{entry['form']}`", entry["meaning"], *(entry[column] for column in columns)]
        rows.append("| " + " | ".join(cells) + " |")
    return "\n".join(rows) + "\n"


def rows_of(title, entries):
    """A table of a page."""
    return "".join(f"{line}\n" for line in table_of(title, entries).split("\n")[3:-1])


def statuses_of(entry):
    """The exit statuses of a command as a table."""
    found = re.findall(r"(\d+) (.*?)(?:; (?=\d)|$)", entry["statuses"])
    return "| Status | What it means |\n|-|-|\n" + "".join(f"| {number} | {text} |\n" for number, text in found)


def free_numbers():
    """The numbers that no code has, as a table."""
    taken = {int(entry["number"]) for _, entries in tables() for entry in entries if entry["kind"] == "Refusal"}
    rows = [f"| {first} to {last} | {about} | {', '.join(str(it) for it in range(first, last + 1) if it not in taken)} |" for first, last, about in GROUPS]
    return "".join(f"{row}\n" for row in ["| Numbers | About | Free |", "|-|-|-|", *rows])


def made_tables():
    """The tables of the pages by their names."""
    made = {title: rows_of(title, entries) for title, entries in tables()}
    commands = dict(tables())["Commands"]
    made |= {f"exit statuses of mpw {entry['word']}": statuses_of(entry) for entry in commands}
    return made | {"free numbers": free_numbers()} | option_tables.made_tables()


def page_of(text, made, used):
    """A page with its tables made anew; their names are added to those that are used."""
    def table(found):
        used.add(found[1])
        return f"<!-- made: {found[1]} -->\n{made.get(found[1], '')}<!-- end -->\n"
    return MADE.sub(table, text)


def pages():
    """The text of each page as it has to be, and what is wrong with the names of its tables."""
    made, used, texts = made_tables(), set(), {}
    for page in PAGES:
        with open(f"{TOP}/{page}", encoding="utf-8") as file:
            texts[page] = page_of(file.read(), made, used)
    return texts, [f"the table '{name}' is on no page" for name in made if name not in used | {"Commands"}] + [
        f"no table is named '{name}'" for name in used if name not in made]


def body_of(path, enum):
    """What stands between the braces of an enum."""
    text = read(path)
    start = text.index(f"enum {enum} {{")
    return text[start : text.index("\n}\n", start)]


def variants(path, enum):
    return re.findall(r"^    ([A-Z]\w*)", body_of(path, enum), re.MULTILINE)


def told(path):
    """The variants of `Code`s that a file gives a number and a word, and these."""
    return re.findall(r'(\w+)::(\w+)(?:\(_(?:, _)?\))? => "(\d+) (\w+)"', read(path))


def spelled(variant):
    return {"DropRole": "drop"}.get(variant, variant.lower())


def lacking_requests(words):
    groups = (("policy", "PolicyRequest"), ("layouts", "LayoutRequest"), ("wafer", "WaferRequest"))
    groups += (("run", "RunRequest"), ("sign_off", "SignOffRequest"), ("request", "Request"))
    asked = {
        spelled(variant)
        for file, enum in groups
        for variant in variants(f"crates/mpw_requests/src/{file}.rt", enum)
        if enum != "Request" or variant in ("Whoami", "Trail")
    }
    files = {file for file, _ in groups} | {"table"}
    asked |= {
        word for file in files for word in re.findall(r'Verb::\w+ => \w+\("(\w+)"', read(f"crates/mpw_requests/src/{file}.rt"))
    }
    return [f"request {word}" for word in sorted(asked ^ words)]


def lacking_codes(codes):
    """What the enums have and the wire or the table doesn't, and what the table has besides."""
    wire = told("crates/mpw_trail/src/first_line.rt") + told("crates/mpw_reply_text/src/reply.rt")
    enums = (
        ("TextFault", "crates/mpw_records/src/fault.rt", "Code"),
        ("DeckKind", "crates/mpw_deck/src/deck.rt", "DeckKind"),
        ("Code", "crates/mpw_trail/src/verdict.rt", "Code"),
        ("LineRefusal", "crates/mpw_reply_text/src/reply.rt", "LineRefusal"),
    )
    named = {(kind, variant) for kind, variant, _, _ in wire}
    lost = [
        f"{path} {variant}, which the wire doesn't print"
        for kind, path, enum in enums
        for variant in variants(path, enum)
        if (kind, variant) not in named and (kind, variant) not in {("Code", "Read"), ("Code", "Deck")}
    ]
    words = {(number, word) for _, _, number, word in wire}
    lost += [f"code {number} {word}" for number, word in sorted(words ^ codes)]
    return lost


def lacking_faults(words):
    """The faults of `mpw check` besides those of texts, and of what a top shows, by their words."""
    hier = {v.lower() for v in variants("crates/mpw_hier/src/fault.rt", "HierFault")}
    check = {v.lower() for v in variants("crates/mpw_check/src/fault.rt", "CheckFault")}
    # A library's and a structure's faults have words of their own, and the fault of names outside the library is in `check`.
    return [f"fault {word}" for word in sorted(hier | check - {"library", "structure", "outside"}) if word not in words]


def lacking_denials(forms):
    wire = read("crates/mpw_trail/src/first_line.rt")
    words = re.findall(r'Denial::\w+(?:\(_(?:, _)?\))? => "(DENIED [^"]*)"', wire)
    enum = variants("crates/mpw_trail/src/verdict.rt", "Denial")
    lost = [] if len(words) == len(enum) else ["a denial that the wire doesn't print"]
    lost += [f"denial {word}" for word in words if not any(is_form(form, word) for form in forms)]
    return lost + ([] if len(forms) == len(words) else ["denials: the table has others"])


def is_form(form, word):
    """Whether a form is that of a denial that begins so: the words, and operands after them."""
    if not form.startswith(word):
        return False
    behind = form[len(word) :].split()
    return word.endswith(" ") == bool(behind) and "activate" not in behind


def unlike_sentences(entries):
    """The sentences of `mpw check` that aren't those of the table."""
    text = read("crates/mpw_firm_messages/src/sentences.rt")
    told = re.findall(r'(?:Code|HierFault|DeckKind)::\w+ =>\s*(?:\{\s*)?"([^"]*)"', text)
    return [f"sentence: {sentence}" for sentence in told if not any(is_said(sentence, e) for e in entries)]


def is_said(sentence, entry):
    """Whether a sentence is an entry's: its meaning and its remedy or the first part of that, or the first part alone."""
    # If `mpw check` has a limit of its own, it comes after the desk's in the meaning.
    meaning = re.sub(r"\S+ shapes \(`mpw check`: (\S+)\)", r"\1 shapes", entry["meaning"])
    remedy = entry["remedy"]
    rest = sentence.removeprefix(meaning + ": ")
    return remedy == rest or re.match(re.escape(rest) + "[,;]", remedy) is not None or sentence == "there is no room for it"


def unlike_forms(entries):
    """The entries whose form doesn't begin as their word says, and the words that one table has twice."""
    begins = {"Request": "{word} ", "Command": "mpw {word} ", "Denial": "DENIED {word} ", "Refusal": "REFUSED {number} {word} "}
    return [
        f"form: {entry['form']}"
        for entry in entries
        if not (entry["form"] + " ").startswith(begins[entry["kind"]].format(**entry))
    ]


def lacking():
    """What the sources have and the table doesn't, and the other way round."""
    entries = [entry for _, listed in tables() for entry in listed]
    kinds = {kind: [entry for entry in entries if entry["kind"] == kind] for kind in KINDS}
    codes = {(entry["number"], entry["word"]) for entry in kinds["Refusal"]}
    lost = lacking_requests({entry["word"] for entry in kinds["Request"]})
    lost += lacking_codes(codes) + lacking_denials([entry["form"] for entry in kinds["Denial"]])
    lost += lacking_faults({word for _, word in codes}) + unlike_forms(entries)
    return lost + unlike_sentences(kinds["Refusal"])


def main(words):
    if words not in ([], ["--check"]):
        print(__doc__, file=sys.stderr)
        return 2
    made = "".join(table_of(*table) for table in tables())
    texts, wrong = pages()
    texts |= {f"crates/{RUN}/stdout": golden.with_table(RUN, "stdout", TABLE, made)}
    if not words:
        for path, text in texts.items():
            with open(f"{TOP}/{path}", "w", encoding="utf-8") as file:
                file.write(text)
    wrong += [f"{path} isn't what the tables make" for path, text in texts.items() if whole(path) != text]
    wrong += [f"not in both: {what}" for what in lacking()] + option_tables.unlisted()
    for line in wrong:
        print(f"help: {line}")
    print("help: docs, run and sources are as the table says" if not wrong else f"help: {len(wrong)} differ")
    return 1 if wrong else 0


if __name__ == "__main__":
    sys.exit(main(sys.argv[1:]))
