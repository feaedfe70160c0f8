"""Markers that are accepted already: a listing of them, and what another listing has of them."""
import re

from mpw_carry import earlier_of
from mpw_desk import BadWord
from mpw_files import text_of

# How many new markers are named.
LISTED = 20
# In nm. A check of a unit below 1 nm prints decimals.
LENGTH = r"(?:0|-?[1-9][0-9]{0,9}|-?(?:0|[1-9][0-9]{0,9})\.[0-9]{0,8}[1-9])"


def key_of(word):
    """The key that a word of a check's listing is."""
    if not re.fullmatch(r"[!-~]{1,255}:[VH]:[01]" + f":{LENGTH}" * 4, word):
        raise BadWord(f"{word}: no key")
    return word


class Known:
    """The accepted markers, and what was seen of them. `new` counts the markers that aren't among them, and `masked` those that a
    desk shows as a number."""

    def __init__(self, keys):
        self.gone, self.keys = dict.fromkeys(keys), frozenset(keys)
        self.found = self.new = self.masked = 0
        self.first = []

    @classmethod
    def of(cls, path):
        """Those of a file: a listing of markers or of waivers, or lines `waive KEY`. Comments begin with #."""
        return cls(earlier_of(text_of(path), key_of))

    @property
    def has_others(self):
        """Whether there are markers that aren't known."""
        return self.new + self.masked > 0

    def has(self, key, line):
        """Whether a marker is known, by its key; counts it. `line` is its whole line."""
        if key in self.keys:
            self.found += 1
            self.gone.pop(key, None)
            return True
        self.new += 1
        if len(self.first) < LISTED:
            self.first.append(line)
        return False

    def see(self, line):
        """Counts a line of a listing as it is printed, if it is that of a marker."""
        text = line.decode("ascii", "replace").rstrip("\n")
        if not text.startswith("OK "):
            self.has(text.split(" ")[0], text)

    def lines(self):
        """What there is to say: both numbers, the first new markers, and all known ones that are gone."""
        masked = f", {self.masked} masked" if self.masked else ""
        yield f"{self.found + self.new + self.masked} markers: {self.found} known, {self.new} new{masked}; known and gone: {len(self.gone)}"
        yield from (f"new: {line}" for line in self.first)
        if self.new > len(self.first):
            yield f"and {self.new - len(self.first)} more new ones"
        yield from (f"gone: {key}" for key in self.gone)
