#!/usr/bin/env python3
"""Breaks the lines of definitions and proofs after the hundredth column, at the place with the fewest open brackets.

  scripts/wrap.py [--check] [FILE..]

Without a file: all .antt files of crates/. With --check nothing is written, and each line that would be broken is printed; the
status is then 1. Imports and lines with a comment stay as they are. Nothing but blanks and line ends changes. `rt fmt`, which
the gate asks for, lays the broken lines out; it may take one a few columns past the hundredth.
"""
import os
import re
import subprocess
import sys

TOP = os.path.dirname(os.path.dirname(os.path.abspath(__file__)))
WIDTH = 100
DEEPER = 4
OPENING, CLOSING = "([{⟦", ")]}⟧"
# What a new line may begin with, and how gladly.
BEFORE = {"→": 9, "≡": 2} | dict.fromkeys("∙ × ∷ ++ ↔ ⊎ ∧ && || | then else ↦ >>=".split(), 6)
# What no line ends with.
NO_END = set("pub abbrev record data (λ λ | → ∙ × ∷ ++ ↔ ⊎ ≡ && || == < ≤ + - let elim absurd rw subst ap sym if not".split())
# What no line begins with.
NO_BEGIN = {":", "=", ".", "←", "where"}


def blanks(text, depth):
    """The places of the blanks outside strings, each with how many brackets are open, and how many are at the end."""
    found, in_string = [], False
    for place, sign in enumerate(text):
        in_string ^= sign == '"'
        if in_string:
            continue
        depth += (sign in OPENING) - (sign in CLOSING)
        if sign == " ":
            found.append((place, depth))
    return found, depth


def head_end(text, column):
    """Where the name and the arguments of a definition end: no line is broken before."""
    if column and not re.match(r"(pub )?\S+ (:|=|←) |let |abbrev ", text):
        return 0
    ends = (place + 2 for place, depth in blanks(text, 0)[0] if depth <= 0 and text[place : place + 3] in (" = ", " : ", " ← "))
    end = next(ends, 0)
    return end if end < WIDTH - column else 0


def fits(text, place, depth):
    before, behind = text[:place].rsplit(" ", 1)[-1], text[place + 1 :].split(" ", 1)[0]
    if behind in NO_BEGIN or behind.startswith((")", "]")) or before in NO_END or before.endswith("λ"):
        return False
    if (before == "=" and depth > 0) or (before, behind) == ("Type", "0"):
        return False
    # A name that a λ binds is next to what it is bound in.
    if before.endswith(".") and before[:-1].isalnum() and len(before) < 12:
        return False
    bound = text[:place].rfind("λ")
    return bound < 0 or ". " in text[bound : place + 1]


def cost(text, place, depth, room, head):
    before, behind = text[:place].rsplit(" ", 1)[-1], text[place + 1 :].split(" ", 1)[0]
    if head and place == head and before == "=" and len(text) - place - 1 <= WIDTH - DEEPER:
        return -100
    found = depth * 10 - BEFORE.get(behind, 0) + (room - place) / room * 14
    if before in ("=", "in", "↦") or before.endswith((";", ",", ".")):
        found -= 4
    return found + (20 if place < room * 0.35 else 0)


def broken(line):
    text = line.lstrip(" ")
    column = len(line) - len(text)
    if len(line) <= WIDTH or text.startswith(("use ", "pub use ", "mod ", "pub mod ")) or "--" in line:
        return [line]
    made, below, depth, head = [], column + DEEPER, 0, head_end(text, column)
    while len(text) > WIDTH - column:
        room = WIDTH - column
        places = [it for it in blanks(text, depth)[0] if max(head, 1) <= it[0] <= room and fits(text, *it)]
        if not places:
            break
        place, _ = min(places, key=lambda it: (cost(text, *it, room, head), -it[0]))
        made.append(" " * column + text[:place].rstrip())
        depth = blanks(text[:place], depth)[1]
        text, column, head = text[place + 1 :].lstrip(" "), below, 0
    return [*made, " " * column + text]


def antt_files():
    for at, folders, files in os.walk(f"{TOP}/crates"):
        folders[:] = [it for it in folders if it != "out"]
        yield from (f"{at}/{it}" for it in files if it.endswith(".antt"))


def crate_of(name):
    return re.sub(r"/(specs|proofs)/.*", "", os.path.abspath(name))


def main(words):
    only_tells = "--check" in words
    status, changed = 0, set()
    for name in [it for it in words if it != "--check"] or sorted(antt_files()):
        with open(name, encoding="utf-8") as file:
            was = file.read().split("\n")
        lines = [broken(line) for line in was]
        for number, line in enumerate(lines, 1):
            if only_tells and len(line) > 1:
                print(f"{os.path.relpath(name)}:{number}")
                status = 1
        text = "\n".join(it for line in lines for it in line)
        if not only_tells and text != "\n".join(was):
            with open(name, "w", encoding="utf-8") as file:
                file.write(text)
            changed.add(crate_of(name))
    for crate in sorted(changed):
        subprocess.run(["rt", "fmt"], cwd=crate, stdout=subprocess.DEVNULL, check=True)
    return status


if __name__ == "__main__":
    sys.exit(main(sys.argv[1:]))
