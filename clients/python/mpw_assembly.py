"""Puts the wafer of a store together: one GDSII library of all placed submissions, and a manifest of what is in it.

Names. The top is `WAFER`. The name of a structure stays if no other structure of the file has it and it isn't `WAFER`. Each
other structure is named `CELL.VERSION.STRUCTURE`. If that name is in use, or has more than 255 characters, its first 240
characters stay, and `~` and a number follow: the least number from 1 whose name isn't in use. Names are given by
submission, in the order in which the desk accepted them, and then in the order of the library.

Cost. Each library that the wafer needs is read twice, one library at a time. The time grows with the rows of the store,
the bytes of these libraries and the number of their structures, and the memory with the largest library and the names.
"""
import hashlib
from collections import Counter

from mpw_gdsii import GdsiiFault, library_of, reached, write_end, write_head, write_structure, write_top
from mpw_store import StoreFault

TOP = "WAFER"
LONGEST_NAME = 255
STEM = 240  # how much of a name stays before a number


class Part:
    """A submission of the wafer: its library's unit, size and SHA-256, the structures that its top reaches, and the
    numbers of the submissions that its outside names are bound to."""

    def __init__(self, history, submission):
        text = history.store.payload(submission.row)
        self.submission, self.size, self.digest = submission, len(text), hashlib.sha256(text).hexdigest()
        library = library_of(text)
        self.unit = library.unit
        self.structures, outside = reached(library, submission.top)
        self.bound = {name: history.bound(submission, name).number for name in outside}
        self.names = {}

    @property
    def whose(self):
        """The cell and its version, for a fault."""
        return f"{self.submission.cell} version {self.submission.version}"


def part_of(history, number):
    submission = history.submissions[number]
    try:
        return Part(history, submission)
    except GdsiiFault as fault:
        raise StoreFault(f"{history.store.path}: {submission.cell} version {submission.version}: {fault}") from None


def parts_of(history, placements):
    """The submissions that are placed, and those that these refer to, by their numbers in order."""
    found, ahead = {}, [placement.submission.number for placement in placements]
    while ahead:
        number = ahead.pop()
        if number not in found:
            found[number] = part_of(history, number)
            ahead.extend(found[number].bound.values())
    return {number: found[number] for number in sorted(found)}


# Names.


class Names:
    """The names of the file. `numbers` has the last number that each stem got, so no number is tried twice."""

    def __init__(self, own):
        counts = Counter(own)
        self.single = {name for name, count in counts.items() if count == 1 and name != TOP}
        self.used, self.numbers = self.single | {TOP}, {}

    def name(self, submission, own):
        """The name of a submission's structure."""
        if own in self.single:
            return own
        name = f"{submission.cell}.{submission.version}.{own}"
        if len(name) > LONGEST_NAME or name in self.used:
            name = self.numbered(name[:STEM])
        self.used.add(name)
        return name

    def numbered(self, stem):
        number = self.numbers.get(stem, 0) + 1
        while f"{stem}~{number}" in self.used:
            number += 1
        self.numbers[stem] = number
        return f"{stem}~{number}"


def give_names(parts):
    """Gives each structure of the parts its name in the file."""
    names = Names(structure.name for part in parts.values() for structure in part.structures)
    for part in parts.values():
        part.names = {it.name: names.name(part.submission, it.name) for it in part.structures}


def top_name(parts, number):
    """The name of a submission's top."""
    part = parts[number]
    return part.names[part.submission.top]


# The file.


def write_part(out, store, parts, part):
    """Writes the structures of a submission."""
    text = store.payload(part.submission.row)
    names = {**part.names, **{name: top_name(parts, number) for name, number in part.bound.items()}}
    for structure in part.structures:
        try:
            write_structure(out, text, structure, part.names[structure.name], names, part.unit)
        except GdsiiFault as fault:
            raise StoreFault(f"{store.path}: {part.whose}: {structure.name}: {fault}") from None


def write_wafer(out, history, placements):
    """Writes the library of the wafer; the parts that are in it."""
    parts = parts_of(history, placements)
    give_names(parts)
    write_head(out, TOP)
    placed = [(top_name(parts, it.submission.number), it.orientation, it.x, it.y) for it in placements]
    write_top(out, TOP, placed)
    for part in parts.values():
        write_part(out, history.store, parts, part)
    write_end(out)
    return parts


# The manifest.


def placement_entry(placement, parts):
    submission = placement.submission
    return {
        "cell": submission.cell, "label": placement.label, "version": submission.version,
        "orientation": placement.orientation, "x": placement.x, "y": placement.y,
        "structure": top_name(parts, submission.number)}


def submission_entry(part, parts):
    submission = part.submission
    bound = {name: parts[number].submission.version for name, number in part.bound.items()}
    return {
        "cell": submission.cell, "version": submission.version, "submitter": submission.submitter,
        "row": submission.row, "bytes": part.size, "sha256": part.digest, "top": submission.top, "unit": part.unit,
        "bound": bound, "structures": part.names}


def run_entry(history):
    """The last run with its deck and its waivers; nothing if there is none."""
    run = history.run
    if run is None:
        return None
    deck = hashlib.sha256(history.store.payload(run.deck)).hexdigest()
    waivers = [{"key": key, "asker": asker, "signer": signer} for key, (asker, signer) in run.waivers.items()]
    return {"number": run.number, "finished": run.is_finished, "deck": {"row": run.deck, "sha256": deck}, "waivers": waivers}


def manifest_of(history, placements, parts):
    """What the wafer is made of, for JSON."""
    return {
        "top": TOP, "rows": history.count, "run": run_entry(history),
        "placements": [placement_entry(it, parts) for it in placements],
        "submissions": [submission_entry(part, parts) for part in parts.values()]}
