"""The page on the menu entries: its example of a deck, and its index of packages."""
import os
import re
import textwrap
import unittest

from klayouts import MINE, TOP
from mpw_klayout.deck import translated

PAGES = [os.path.join(TOP, "docs", name) for name in ("klayout.md", "klayout-macros.md")]
TITLE = "## Deck from this DRC script"


def page():
    """The text of the page that has the section on decks."""
    for path in filter(os.path.exists, PAGES):
        with open(path, encoding="utf-8") as file:
            text = file.read()
        if TITLE in text:
            return text
    raise AssertionError(f"no page has {TITLE}")


class Page(unittest.TestCase):
    def test_the_deck(self):
        section = page().split(TITLE)[1].split("\n## ")[0]
        script, deck = (textwrap.dedent(found) for found in re.findall(r"(?:^    .*\n)+", section, re.M))
        made = translated(script, 1)
        self.assertEqual(made.deck, deck)
        self.assertEqual([it.line for it in made.left_out], [5])

    def test_the_index(self):
        self.assertIn("    " + MINE.format(package="/srv/klayout/mpw"), page())


if __name__ == "__main__":
    unittest.main()
