"""What a request is answered where it isn't accepted: a denial or a refusal, each raised as an exception.

A rule is tested where it stands in the code, and the first test that fails raises the reply. So nothing may have
changed by then, and a change that is tested as a whole is taken back first.
"""

# Those that a script of one connection can be told, but for `memory`.
CODE_WORDS = {
    1: "short", 2: "badlength", 3: "badtype", 4: "unexpected", 5: "badsize", 6: "badname", 7: "unit", 8: "mag",
    9: "angle", 10: "notmanhattan", 11: "roundpath", 12: "oddwidth", 13: "pointpath", 14: "columns", 15: "pitch",
    16: "doublename", 18: "absolute", 20: "notop", 21: "cycle", 23: "nocell", 24: "extent",
    25: "shapes", 26: "deep", 27: "full", 28: "tiles", 30: "opened", 31: "norun", 32: "unknown", 33: "known",
    35: "used", 36: "loop", 38: "nodeck", 39: "empty", 40: "form", 41: "long", 42: "cut",
    43: "notfinished", 44: "marker", 45: "nowaiver", 51: "word", 52: "number", 53: "layer",
    54: "samelayer", 55: "doublerule", 56: "tile", 57: "rules",
}
CODES = {word: code for code, word in CODE_WORDS.items()}


class NotAccepted(Exception):
    """A reply that isn't OK; its first line is all of it."""

    first_line = ""


class Denied(NotAccepted):
    """DENIED, and what is lacking, would be broken, or bars the user."""

    def __init__(self, text):
        super().__init__(text)
        self.first_line = f"DENIED {text}"


class Refused(NotAccepted):
    """REFUSED, the code, its word, and of a text the place of its first fault."""

    def __init__(self, word, place=None):
        super().__init__(word)
        self.word = word
        self.first_line = f"REFUSED {CODES[word]} {word}" + ("" if place is None else f" {place}")


def test(passes, word, place=None):
    """Refuses a request, or a text at a place, unless the test passes."""
    if not passes:
        raise Refused(word, place)
