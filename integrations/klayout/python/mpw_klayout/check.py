"""Runs `mpw check` on an exported cell: its command line, what it printed, and what a window shows of that."""
import os
import re
import shutil
import signal
import subprocess
import time
from typing import Callable, List, NamedTuple, Optional, Tuple
from xml.etree import ElementTree

FIRST = 2000  # markers of each rule in a report: the marker browser gets slow with very many
SHOWN = 200  # lines of faults in a window
LARGEST_UNIT = 1000  # nm
ENDED = {2: "mpw doesn't accept the command line", 3: "a file can't be read or written", 5: "out of memory",
         70: "mpw can't be run"}


class Stopped(Exception):
    """Why a check can't be made. The text is a sentence for the user."""


def program_of(setting: str) -> str:
    """The path of mpw: that of the setting, else the first one on PATH."""
    found = shutil.which(os.path.expanduser(setting) if setting else "mpw")
    if found is None:
        raise Stopped(f"{setting or 'mpw'}: there is no such program. Install mpw, or name it in mpw > Settings.")
    return found


def unit_of(dbu: float) -> int:
    """The database unit in nm. `dbu` is in micrometres, as KLayout has it."""
    nm = dbu * 1000
    if not 1 <= round(nm) <= LARGEST_UNIT or abs(nm - round(nm)) > 1e-9 * nm:
        raise Stopped(
            f"The layout's database unit is {nm:g} nm. mpw accepts a whole number of nm from 1 to {LARGEST_UNIT}. Save the layout"
            " with another unit, such as 0.001 um (File > Save As, 'Database unit'), and open that file.")
    return round(nm)


def is_plain(name: str) -> bool:
    """Whether KLayout writes a cell's name into GDSII as it is."""
    return re.fullmatch("[A-Za-z0-9_$]{1,32}", name) is not None


def command(program: str, deck: str, top: str, library: str, report: str) -> List[str]:
    """The command line of a check. The listing is only counted: the markers are in the report."""
    return [program, "check", "--deck", deck, "--top", top, "--faults", "--summary", "--limit", str(FIRST), "--report", report,
            library]


def run(words: List[str], folder: str, tick: Callable[[], None]) -> Tuple[int, str, str]:
    """Runs a command: its status, and what it printed on the standard output and the standard error. `tick` is called
    meanwhile; if it raises, the command is ended."""
    names = [os.path.join(folder, name) for name in ("printed", "told")]
    with open(names[0], "wb") as printed, open(names[1], "wb") as told:
        try:
            process = subprocess.Popen(words, stdin=subprocess.DEVNULL, stdout=printed, stderr=told, start_new_session=True)
        except OSError as error:
            raise Stopped(f"{words[0]}: {error.strerror}") from None
        try:
            while process.poll() is None:
                tick()
                time.sleep(0.02)
        finally:
            if process.poll() is None:
                os.killpg(process.pid, signal.SIGTERM)
                process.wait()
    return (process.returncode, *map(read, names))


def read(path):
    with open(path, encoding="utf-8", errors="replace") as file:
        return file.read()


class Outcome(NamedTuple):
    """What a check printed. `counts` has the markers of each rule, None if nothing was checked."""

    status: int
    counts: Optional[List[Tuple[str, int]]]
    notes: List[str]
    faults: List[str]
    error: str

    @property
    def has_report(self):
        """Whether a report has markers, or faults."""
        return bool(self.faults) or any(count for _, count in self.counts or ())

    @property
    def text(self):
        """The sentence that a window shows."""
        if self.counts is not None:
            found = [f"{name} {count}" for name, count in self.counts if count]
            whole = sum(count for _, count in self.counts)
            return f"{whole} marker{'' if whole == 1 else 's'}: {', '.join(found)}" if whole else "No markers"
        return self.error or ENDED.get(self.status, f"mpw ended with status {self.status}")

    @property
    def details(self):
        """The notes, and the first faults."""
        left = len(self.faults) - SHOWN
        more = [f"and {left} more faults"] if left > 0 else []
        return "\n".join(self.notes + self.faults[:SHOWN] + more)


def outcome_of(status: int, printed: str, told: str, library: str) -> Outcome:
    """What a command printed. The exported file's path is left out, since the user doesn't know it."""
    lines = [line.replace(f"{library}: ", "").replace(library, "the exported cell") for line in told.splitlines()]
    found = {word: [line[len(word) + 2:] for line in lines if line.startswith(f"{word}: ")] for word in ("note", "fault", "error", "mpw")}
    error = "\n".join(found["error"])
    if status not in (0, 1) and not error:
        error = "\n".join(line for line in lines if not line.startswith("note: "))
    rows = [line.rsplit(" ", 1) for line in printed.splitlines()]
    counts = [(name, int(count)) for name, count in rows[:-1]] if status in (0, 1) and rows else None
    # The script mpw says if the program isn't proved.
    return Outcome(status, counts, found["note"] + (found["mpw"] if counts is not None else []), found["fault"], error)


def report_for(text: str, written: str, shown: str) -> str:
    """A report under the name that KLayout shows of a cell, which may be another than it writes into GDSII."""
    tree = ElementTree.fromstring(text)
    for path in "top-cell", "cells/cell/name", "items/item/cell":
        for element in tree.iterfind(path):
            if element.text == written:
                element.text = shown
    return ElementTree.tostring(tree, encoding="unicode")
