#!/usr/bin/env python3
"""Compares what KLayout's checks find on the examples with their listings of markers, and tells which differ.

  bench/klayout_examples.py

For each NAME.markers of examples/ it runs klayout_deck.py on NAME.gds under NAME.deck, and compares rule by rule the boxes of the
pairs of edges with those of the listing's markers. The exit status is 0 where all are the same, else 1."""
import glob
import os
import subprocess
import sys

HERE = os.path.dirname(os.path.abspath(__file__))
EXAMPLES = os.path.join(os.path.dirname(HERE), "examples")


def by_klayout(name):
    """The boxes that KLayout finds for each rule."""
    words = ["klayout", "-b", "-r", os.path.join(HERE, "klayout_deck.py")]
    words += ["-rd", f"deck={name}.deck", "-rd", f"library={name}.gds"]
    environment = {**os.environ, "QT_QPA_PLATFORM": "offscreen"}
    ended = subprocess.run(words, env=environment, stdout=subprocess.PIPE, check=True, text=True)
    lines = [line.split() for line in ended.stdout.splitlines()]
    return {rule: sorted(boxes) for rule, _, *boxes in lines}


def box_of(axis, x1, x2, y0, y1):
    """A marker's box, left:bottom:right:top."""
    return ":".join((x1, y0, x2, y1) if axis == "V" else (y0, x1, y1, x2))


def by_listing(name):
    """The boxes of the markers of each rule of the deck."""
    with open(f"{name}.deck", encoding="ascii") as deck:
        found = {line.split()[1]: [] for line in list(deck)[1:]}
    with open(f"{name}.markers", encoding="ascii") as markers:
        for line in list(markers)[1:]:
            # A rule's name may hold colons.
            rule, axis, _, *spot = line.split()[0].rsplit(":", 6)
            found[rule].append(box_of(axis, *spot))
    return {rule: sorted(boxes) for rule, boxes in found.items()}


def is_same(name):
    """Whether both find the same of an example; tells the counts, and what differs."""
    theirs, ours = by_klayout(name), by_listing(name)
    for rule, boxes in ours.items():
        verdict = "same" if theirs.get(rule) == boxes else f"KLayout: {theirs.get(rule)}, listing: {boxes}"
        print(os.path.basename(name), rule, len(boxes), verdict)
    return theirs == ours


def main():
    names = [os.path.splitext(path)[0] for path in glob.glob(os.path.join(EXAMPLES, "*.markers"))]
    same = [is_same(name) for name in sorted(names)]
    return 0 if all(same) else 1


if __name__ == "__main__":
    sys.exit(main())
