"""The tables of a golden test: in the stdin and the stdout of a gate program, what follows a line `== NAME`, up to the next such line."""
import os
import re

TOP = os.path.dirname(os.path.dirname(os.path.abspath(__file__)))


def parts(text):
    """The names of the tables with their texts, in order."""
    found = re.split(r"^== (\w+)\n", text, flags=re.M)
    return dict(zip(found[1::2], found[2::2]))


def table(crate, kind, name):
    """The text of a table of a crate's stdin or stdout."""
    with open(f"{TOP}/crates/{crate}/{kind}", encoding="utf-8") as file:
        return parts(file.read())[name]


def with_table(crate, kind, name, text):
    """A crate's stdin or stdout with another text of that table."""
    with open(f"{TOP}/crates/{crate}/{kind}", encoding="utf-8") as file:
        return "".join(f"== {it}\n{text if it == name else old}" for it, old in parts(file.read()).items())
