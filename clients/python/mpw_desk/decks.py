"""Decks as people write them, and as a desk takes them.

The text of a deck may have comments, lines that end with CRLF, and lengths with a unit. A desk takes none of these, so they
are resolved before a deck is sent:

- A comment begins with `#` and ends with its line. It is on a line of its own, with or without blanks and tabs before it;
  or it is after the last word of a rule or of the tile line, with at least one blank or tab before it. Anywhere else a `#`
  belongs to its word, since the name of a rule may have one.
- A line without a word is left out, and so are blanks and tabs after a line's last word.
- The last word of a line, a distance or the side of the tiles, may have a unit: 56nm is 56, and 0.5um is 500. It has to be a
  whole number of nm.

A deck that a desk accepts stays as it is, to the byte. Any other fault is sent as it is, and the desk refuses it.
"""
import re
from typing import List, NamedTuple

from .faults import BadDeck

# A line up to its last word, that word, and what is left out after it.
LINE = re.compile(
    rb"((?:tile|(?:width|space) [^ ]+ [^ ]+|(?:separation|enclosing) [^ ]+ [^ ]+ [^ ]+) )([^ \t]+)([ \t]+(?:#.*)?)?")
LENGTH = re.compile(rb"([0-9]{1,12})(?:\.([0-9]{1,12}))?(nm|um)")
NM_OF = {b"nm": 1, b"um": 1000}


class PlainDeck(NamedTuple):
    """A deck as a desk takes it, and for each of its lines the line of the text that it comes from, counted from 1."""

    text: bytes
    lines: List[int]

    def line_of(self, line):
        """The line of the text that a line of the plain deck comes from; None if there is no such line."""
        return self.lines[line - 1] if 0 < line <= len(self.lines) else None


def plain_deck(text: bytes) -> PlainDeck:
    """The deck of a text without comments and units. Raises BadDeck if a length is no whole number of nm."""
    lines, numbers = [], []
    for number, line in enumerate(re.findall(rb"[^\n]*\n|[^\n]+", text), 1):
        feed = line[-1:] if line.endswith(b"\n") else b""
        plain = plain_line(line[:len(line) - len(feed)], number)
        if plain is not None:
            lines.append(plain + feed)
            numbers.append(number)
    return PlainDeck(b"".join(lines), numbers)


def plain_line(line, number):
    """A line without its comment and its unit; None if nothing of it is left."""
    if line.endswith(b"\r"):
        line = line[:-1]
    if line.strip(b" \t")[:1] in (b"", b"#"):
        return None
    found = LINE.fullmatch(line)
    return line if found is None else found.group(1) + length_of(found.group(2), number)


def length_of(word, number):
    """A length in nm without its unit; any other word as it is."""
    found = LENGTH.fullmatch(word)
    if found is None:
        return word
    whole, part, unit = found.group(1), found.group(2) or b"", found.group(3)
    nm, rest = divmod(int(whole + part) * NM_OF[unit], 10 ** len(part))
    if rest:
        raise BadDeck(f"line {number}: {word.decode('ascii')} is no whole number of nm: write one, as 56, 56nm or 0.056um")
    return str(nm).encode("ascii")
