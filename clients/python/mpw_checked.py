"""Has `mpw check` check the library of a wafer, and says what the desk's verdict on it is.

A store has no markers. A finished run has just the markers of the flat layout of its placements, and so has a check of the
top that places them. So the markers come from the file itself, by a program that knows neither desk nor store. Each
waiver of the run has to be of one of them: this would show a library that isn't the one that the desk checked.
"""
import os
import re
import subprocess
import sys
import tempfile

from mpw_desk import BadWord, Key, shortened

CLEAN, STALE, NOT_FINISHED, UNKNOWN = "clean", "stale", "notfinished", "unknown"


class Unchecked(Exception):
    """`mpw check` can't be run, or can't check the wafer, or finds other markers than the desk."""


def keys_of(lines):
    """The keys of a listing, which has to be whole."""
    found = re.fullmatch(r"OK ([0-9]{1,12})\n", next(lines, ""))
    if not found:
        raise Unchecked("mpw check printed no listing: run it by hand on a draft (--draft)")
    count = int(found.group(1))
    for line in lines:
        count -= 1
        yield str(Key.of(line.split(" ")[0]))
    if count != 0:
        raise Unchecked("mpw check printed a part of a listing: run it by hand on a draft (--draft)")


def tally(keys, waivers):
    """How many markers there are, and how many have no signed waiver."""
    unseen, markers, still_open = set(waivers), 0, 0
    for key in keys:
        markers += 1
        unseen.discard(key)
        still_open += waivers.get(key, (None, None))[1] is None
    if unseen:
        raise Unchecked(f"the run has a waiver of {min(unseen)}, and mpw check finds no such marker in the wafer: --draft writes it, to compare")
    return markers, still_open


def lines_of(file):
    """The lines that a program wrote into a file."""
    file.seek(0)
    return file.read().decode("ascii", "replace").splitlines()


def error_in(lines):
    """What a program says is wrong."""
    found = [line for line in lines if line.startswith("error: ")] or lines[-1:] or ["it gives no reason"]
    return shortened(found[0], 400)


def show_notes(lines):
    """Shows which program ran: `./mpw` says so if it isn't the proved one."""
    for line in lines:
        if line.startswith("mpw: "):
            print(shortened(line, 400), file=sys.stderr)


def check(program, deck, top, library, waivers):
    """Checks a structure of a library under a deck: how many markers it has, and how many of them have no signed
    waiver. Its cost is that of the check; of the markers none is held."""
    with tempfile.TemporaryDirectory(prefix="mpw-deck-") as folder, tempfile.TemporaryFile() as errors:
        rules = os.path.join(folder, "deck")
        with open(rules, "wb") as file:
            file.write(deck)
        words = [program, "check", "--deck", rules, "--top", top, library]
        try:
            process = subprocess.Popen(words, stdin=subprocess.DEVNULL, stdout=subprocess.PIPE, stderr=errors)
        except OSError as error:
            raise Unchecked(f"{program}: {error.strerror}: mpw check can't be run: build it (./mpw build check)") from None
        with process:
            counted = counts_of(process, waivers)
        lines = lines_of(errors)
        show_notes(lines)
        if process.returncode not in (0, 1):
            raise Unchecked(f"mpw check ended with status {process.returncode}: {error_in(lines)}")
        if isinstance(counted, Unchecked):
            raise counted
        return counted


def counts_of(process, waivers):
    """What the listing of a check comes to, or why it isn't one: the check's own fault comes first."""
    lines = (line.decode("ascii", "replace") for line in process.stdout)
    try:
        return tally(keys_of(lines), waivers)
    except BadWord as fault:
        return Unchecked(f"mpw check printed no listing: {fault}")
    except Unchecked as fault:
        return fault
    finally:
        for _ in lines:
            pass


class Verdict:
    """The verdict on the last run, how many markers the run has if that is known, and what the verdict means."""

    def __init__(self, word, meaning, markers=None):
        self.word, self.meaning, self.markers = word, meaning, markers


def early_verdict(history):
    """The verdict that the rows alone give: of a run that isn't finished, or that is stale."""
    run = history.run
    if run is None or not run.is_finished:
        return Verdict(NOT_FINISHED, "the desk has no finished run")
    if history.is_stale():
        return Verdict(STALE, f"the deck or the placements changed after run {run.number}")
    return None


def verdict_of(run, markers, still_open):
    """The verdict on a finished run that isn't stale."""
    if still_open:
        return Verdict(f"open {still_open}", f"{still_open} of {markers} markers of run {run.number} have no signed waiver", markers)
    return Verdict(CLEAN, f"each of {markers} markers of run {run.number} has a signed waiver", markers)
