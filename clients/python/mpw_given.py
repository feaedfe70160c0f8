"""The words of a check, as `mpw_checking` reads and changes them."""
from typing import List, NamedTuple, Optional

# The options of a check that have no value.
FLAGS = "--strict", "--faults", "--skip-unreached", "--skip-faulty", "--summary", "--help", "--version", "--"
# The options that aren't the program's.
OURS = "--page", "--known"


class Item(NamedTuple):
    """An option with its value, or a flag, or an argument without a name."""

    words: List[str]
    name: Optional[str]
    value: Optional[str] = None


class Given:
    """The options and arguments of a check. The last one of a name counts."""

    def __init__(self, items):
        self.items = items

    def has(self, name):
        return any(it.name == name for it in self.items)

    def value(self, name):
        """The value of an option or, for None, the last argument; None if it isn't given."""
        return next((it.value for it in reversed(self.items) if it.name == name and it.value is not None), None)

    deck = property(lambda self: self.value("--deck"))
    top = property(lambda self: self.value("--top"))
    page = property(lambda self: self.value("--page"))
    known = property(lambda self: self.value("--known"))
    file = property(lambda self: self.value(None))

    def words(self, replaced):
        """The program's words, with other values by the names of the options."""
        found = []
        for it in self.items:
            if it.name in OURS and it.value is not None:
                continue
            is_other = it.value is not None and replaced.get(it.name) is not None and it.value == self.value(it.name)
            other = replaced[it.name] if is_other else None
            found += it.words if other is None else [other] if it.name is None else [it.name, other]
        return found


def given_of(words):
    """What the words of a check say. An option without its value stays as it is, so that the program refuses it."""
    items, open_word = [], None
    for word in words:
        name, equals, value = word.partition("=")
        if open_word:
            items.append(Item([open_word, word], open_word, word))
            open_word = None
        elif word.startswith("--") and equals:
            items.append(Item([word], name, value))
        elif word in FLAGS or word.startswith("-") and not word.startswith("--") and word != "-":
            items.append(Item([word], word))
        elif word.startswith("--"):
            open_word = word
        else:
            items.append(Item([word], None, word))
    return Given(items + ([Item([open_word], open_word)] if open_word else []))
