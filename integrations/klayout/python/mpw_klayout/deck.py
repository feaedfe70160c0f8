"""Makes a deck of a DRC script of KLayout's.

A rule is a line that outputs a check of literal layers:

    m1 = input(1, 0)
    m1.width(0.23.um, projection).output("M1.W")

becomes `width M1.W 1/0 230`. Each line that has a check or an output and didn't become a rule is listed with a reason.
"""
import re
from fractions import Fraction
from typing import Dict, List, NamedTuple, Optional, Tuple

from mpw_klayout.script import Call, Node, Number, Statement, Text, expression, parts, statements, tokens

TILE = 50000  # nm; markers are the same by whatever side
MOST_RULES, MOST_NAME = 256, 255
LARGEST = 65535  # of a layer's numbers, and of a distance in nm
CHECKS = {
    "width": "width", "space": "space", "separation": "separation", "sep": "separation", "enclosing": "enclosing",
    "enc": "enclosing",
}
LAYERS = {"width": 1, "space": 1, "separation": 2, "enclosing": 2}
# What a script may output besides.
OTHERS = ("output", "drc", "notch", "isolated", "iso", "enclosed", "overlap")
UNITS = {"nm": 1, "um": 1000, "micron": 1000, "mm": 10**6, "m": 10**9}  # in nm
CORNERS = ("euclidian", "square")
WITHOUT_EFFECT = ("projection", "transparent", "shielded", "whole_edges")
READERS = ("input", "polygons")
SAME_LAYER = ("dup", "merged")
# These change the layer that they are called on, as all that begins with select_.
CHANGING = ("size", "snap", "scale", "rotate", "move", "transform", "merge", "insert", "raw", "select", "map_props")
LIMITING = ("source", "layout", "cell", "clip", "select", "touching", "overlapping", "global_transform")
BLOCKS = ("if", "unless", "while", "until", "case", "for", "def", "begin", "class", "module")
BRANCHES = ("else", "elsif", "when", "in", "rescue", "ensure")


class Rule(NamedTuple):
    """A rule of a deck, with the line of the script that outputs it."""

    check: str
    name: str
    layers: Tuple[str, ...]
    distance: int
    line: int

    def __str__(self):
        return " ".join([self.check, self.name, *self.layers, str(self.distance)])


class LeftOut(NamedTuple):
    """A line of the script that is no rule of the deck, and why."""

    line: int
    text: str
    reason: str


class Translation(NamedTuple):
    """What became of a script. The notes say how the deck differs from it."""

    rules: List[Rule]
    left_out: List[LeftOut]
    notes: List[str]

    @property
    def deck(self):
        """The deck's text."""
        return "".join(f"{line}\n" for line in [f"tile {TILE}", *self.rules])


class Fault(Exception):
    """Why a line is left out."""


# What an expression of the script means. Two layers are the same object if one is assigned to the other.


class Layer:
    def __init__(self, word):
        self.word = word


class Check(NamedTuple):
    check: str
    layers: Tuple[Layer, ...]
    distance: int
    has_corners: bool
    lines: Tuple[int, ...]


class Length(NamedTuple):
    nm: Fraction


class Option(NamedTuple):
    word: str


class Source(NamedTuple):
    """The layout that a script reads."""


class Unknown(NamedTuple):
    reason: str


def layer_of(values):
    """The layer of input(LAYER), input(LAYER, DATATYPE) or input("LAYER/DATATYPE")."""
    words = [value.value for value in values if isinstance(value, Number) and value.is_whole]
    if len(values) == 1 and isinstance(values[0], Text) and re.fullmatch(r"[0-9]+/[0-9]+", values[0].text):
        words = list(map(int, values[0].text.split("/")))
    elif len(words) != len(values) or len(words) not in (1, 2):
        raise Fault("its layer isn't input(LAYER, DATATYPE) with two numbers")
    layer, datatype = (*words, 0)[:2]
    if max(layer, datatype) > LARGEST:
        raise Fault(f"a layer's number is above {LARGEST}")
    return Layer(f"{layer}/{datatype}")


def distance_of(value, unit):
    """A distance in whole nm. A whole number is so many database units of the layout."""
    if isinstance(value, Number) and value.is_whole and unit is None:
        raise Fault("its distance is in database units, and no layout is open that says how long they are")
    nm = value.nm if isinstance(value, Length) else value.value * (unit if value.is_whole else 1000)
    if nm.denominator != 1 or not 1 <= nm <= LARGEST:
        raise Fault(f"its distance of {float(nm):g} nm isn't a whole number from 1 to {LARGEST} nm")
    return int(nm)


class Reader:
    """Follows the variables of a script, statement by statement."""

    def __init__(self, unit):
        self.unit, self.variables, self.opened = unit, {}, []
        self.rules, self.reasons, self.used, self.conditional = [], {}, set(), set()
        self.cornered, self.limited = set(), set()

    # Expressions.

    def value(self, node: Optional[Node], lines=()):
        """What an expression means; raises Fault where this isn't known."""
        if node is None:
            raise Fault("it is written in a way that isn't read here")
        if not isinstance(node, Call):
            return node
        if node.receiver is not None:
            return self.method(node, self.value(node.receiver, lines), lines)
        if node.name in READERS and node.arguments is not None:
            return layer_of([self.value(it) for it in node.arguments])
        if node.arguments is None and node.name in self.variables:
            value = self.variables[node.name]
            if isinstance(value, Unknown):
                raise Fault(value.reason)
            return value
        if node.name in ("source", "layout") and node.arguments is None:
            return Source()
        return Option(node.name)

    def method(self, node, receiver, lines):
        """What a method's call means."""
        if isinstance(receiver, Source) and node.name in READERS:
            return layer_of([self.value(it) for it in node.arguments or ()])
        if isinstance(receiver, Number) and node.arguments is None and node.name in (*UNITS, "dbu"):
            if node.name == "dbu":
                return Length(Fraction(distance_of(Number(receiver.value, True), self.unit)))
            return Length(receiver.value * UNITS[node.name])
        if isinstance(receiver, Layer):
            if node.name in SAME_LAYER and not node.arguments:
                return receiver
            if node.name in CHECKS and node.arguments is not None:
                return self.check(node, receiver, lines)
            raise Fault(f"{node.name} isn't one of width, space, separation and enclosing of a layer that is read")
        if isinstance(receiver, Check):
            raise Fault(f"its markers are changed before they are output: .{node.name}")
        if isinstance(receiver, Option):
            raise Fault(f"{receiver.word} is no layer that is read by input(LAYER, DATATYPE)")
        raise Fault(f".{node.name} isn't read here")

    def check(self, node, layer, lines):
        """A check, whose arguments may be in any order."""
        check, layers, distances, corners = CHECKS[node.name], [layer], [], True
        for value in (self.value(it) for it in node.arguments):
            if isinstance(value, Layer):
                layers.append(value)
            elif isinstance(value, (Number, Length)):
                distances.append(value)
            elif isinstance(value, Option) and value.word in WITHOUT_EFFECT:
                corners = corners and value.word != "projection"
            elif not isinstance(value, Option) or value.word not in CORNERS:
                raise Fault(f"a deck has no option {value.word}" if isinstance(value, Option) else "an argument isn't read")
        if (len(layers), len(distances)) != (LAYERS[check], 1):
            raise Fault(f"{check} has {LAYERS[check]} layer{'s' if LAYERS[check] > 1 else ''} and one distance")
        if len(layers) == 2 and layers[0].word == layers[1].word:
            raise Fault(f"{check} of a layer with itself")
        return Check(check, tuple(layers), distance_of(distances[0], self.unit), corners, lines)

    # Statements.

    def read(self, statement: Statement):
        """Reads a statement; what it outputs becomes a rule."""
        lines = tuple(sorted({token.line for token in statement}))
        first = statement[0].text
        if first in BRANCHES or first == "end" or braces(statement) < 0:
            self.leave_branch(first)
        elif first in BLOCKS or opens_block(statement):
            self.open_block(statement)
        else:
            self.read_plain(statement, lines)

    def read_plain(self, statement, lines):
        guard = next((place for place, it in enumerate(statement) if it.text in ("if", "unless") and place), None)
        if self.opened or guard is not None:
            self.conditional.update(lines)
        plain = statement[:guard]
        if len(plain) > 2 and plain[0].kind == "name" and plain[1].text == "=":
            self.assign(plain[0].text, plain[2:], lines, guard is not None)
            return
        self.forget_assigned(plain)
        self.note_limits(plain)
        try:
            self.output(expression(plain), lines)
        except Fault as fault:
            self.leave_out(lines, fault)
        self.forget_changed(plain)

    def assign(self, name, given, lines, is_guarded):
        """Gives a variable what an expression means."""
        try:
            value = self.value(expression(given), lines)
            if isinstance(value, (Option, Source)):
                raise Fault("it is neither a layer nor a number")
        except Fault as fault:
            self.leave_out(lines, fault)
            value = Unknown(f"{name} is neither a layer that input(LAYER, DATATYPE) reads nor a number")
        if isinstance(value, Check):
            self.leave_out(lines, "its result isn't output")
        self.forget_assigned(given)
        self.forget_changed(given)
        self.variables[name] = Unknown(f"{name} is only set under a condition") if is_guarded else value
        if self.opened:
            self.opened[-1].add(name)

    def output(self, node, lines):
        """Makes a rule of a check that is output."""
        if not isinstance(node, Call) or node.name != "output" or node.receiver is None:
            self.value(node, lines)
            raise Fault("its result isn't output")
        value = self.value(node.receiver, lines)
        if not isinstance(value, Check):
            raise Fault("what it outputs is no check")
        if len(self.rules) == MOST_RULES:
            raise Fault(f"a deck has at most {MOST_RULES} rules")
        words = tuple(layer.word for layer in value.layers)
        name = self.name_of(node.arguments or (), value.check, words)
        self.rules.append(Rule(value.check, name, words, value.distance, lines[0]))
        self.used.update(lines, value.lines)
        if value.has_corners:
            self.cornered.update(value.lines)

    def name_of(self, given, check, layers):
        """A new name for a rule: the output's first string without blanks and colons, else of the check and its layers."""
        text = next((it.text for it in given if isinstance(it, Text) and "#{" not in it.text), "")
        name = re.sub(r"[^!-9;-~]+", "_", text).strip("_") or "_".join([check, *layers]).replace("/", "_")
        taken, number, cut = {rule.name for rule in self.rules}, 1, name[:MOST_NAME - 4]
        while cut in taken:
            number += 1
            cut = f"{name[:MOST_NAME - 4]}_{number}"
        return cut

    # Variables that aren't known any longer.

    def forget(self, names, reason):
        for name in names:
            self.variables[name] = Unknown(reason.format(name))
            if self.opened:
                self.opened[-1].add(name)

    def forget_assigned(self, statement):
        """An assignment of another form, as `a, b = ..` or `a += ..`."""
        signs = [place for place, it in enumerate(statement) if it.kind == "sign" and re.fullmatch(r"[-+*/%&|^]?=", it.text)]
        if signs:
            self.forget([it.text for it in statement[:signs[-1]] if it.kind == "name"], "{} is set in a way that isn't read here")

    def forget_changed(self, statement):
        """A layer that is changed isn't the one that was read, by whatever variable."""
        for before, dot, method in zip(statement, statement[1:], statement[2:]):
            if dot.text == "." and (method.text in CHANGING or method.text.startswith("select_")):
                # After a bracket it may be any layer that is named there.
                names = [it.text for it in statement] if before.text == ")" else [before.text]
                layers = [it for it in map(self.variables.get, names) if isinstance(it, Layer)]
                changed = [name for name, it in self.variables.items() if any(it is layer for layer in layers)]
                self.forget(changed, f"{{}} is changed by {method.text}")

    def open_block(self, statement):
        """A block may set any of its names, as a parameter does."""
        self.opened.append(set())
        self.forget([it.text for it in statement if it.kind == "name" and it.text in self.variables],
                    "{} is a name of a block")
        if statement[-1].text in ("end", "}") and len(statement) > 1:
            self.leave_branch("end")

    def leave_branch(self, word):
        """After a branch it isn't known whether its variables are set."""
        if not self.opened:
            return
        names = self.opened[-1] if word in BRANCHES else self.opened.pop()
        self.forget(set(names), "{} is only set under a condition")

    # What the script has besides rules.

    def leave_out(self, lines, fault):
        """Notes why these lines are left out, unless they become part of a rule."""
        for line in lines:
            self.reasons.setdefault(line, str(fault))

    def note_limits(self, statement):
        if statement[0].text in LIMITING and (len(statement) == 1 or statement[1].text not in (".", "=")):
            self.limited.add(statement[0].line)


def braces(statement):
    """How many braces a statement leaves open; below 0 it closes some."""
    return sum((it.text == "{") - (it.text == "}") for it in statement)


def opens_block(statement):
    """Whether a statement begins a block that it doesn't end, or assigns what an `if` gives."""
    words = [it.text for it in statement]
    is_assigned = words[1:2] == ["="] and len(words) > 2 and words[2] in BLOCKS
    return words.count("do") > words.count("end") or braces(statement) > 0 or is_assigned


def relevant_lines(text: str) -> List[int]:
    """The lines with a word of a check or of an output."""
    found, before = set(), ""
    for token in tokens(text):
        if token.kind == "name" and (token.text in OTHERS or before == "." and token.text in CHECKS):
            found.add(token.line)
        before = token.text
    return sorted(found)


def numbered(lines):
    """Lines by their numbers."""
    return ("lines " if len(lines) > 1 else "line ") + ", ".join(map(str, sorted(lines)))


def notes_of(reader: Reader) -> List[str]:
    """How the deck differs from the script."""
    found = []
    if reader.cornered:
        found.append(f"{numbered(reader.cornered)}: KLayout measures round corners too. A deck measures along x and y only, as with the"
                     " option projection.")
    if reader.conditional & reader.used:
        found.append(f"{numbered(reader.conditional & reader.used)}: the script may skip this check or repeat it. A deck always"
                     " checks it, once.")
    if reader.limited:
        found.append(f"{numbered(reader.limited)}: the script chooses what it checks. A deck checks all of a cell.")
    return found


def translated(text: str, unit: Optional[Fraction] = None) -> Translation:
    """The deck of a script. `unit` is the layout's database unit in nm, in which a script gives whole distances."""
    reader, source = Reader(unit), text.split("\n")
    for statement in statements(text):
        reader.read(statement)
    left_out = [LeftOut(line, source[line - 1].strip(), reader.reasons.get(line, "it is written in a way that isn't read here"))
                for line in relevant_lines(text) if line not in reader.used]
    return Translation(reader.rules, left_out, notes_of(reader))


def summary(translation: Translation) -> Dict[str, str]:
    """What a window shows of a translation: a sentence, and the details."""
    rules, left_out = translation.rules, translation.left_out
    counted = [f"{len(rules)} rule{'' if len(rules) == 1 else 's'}", f"{len(left_out)} line{'' if len(left_out) == 1 else 's'} left out"]
    details = [f"line {it.line} left out: {it.reason}\n    {it.text}" for it in left_out] + translation.notes
    return {"text": ", ".join(counted), "details": "\n".join(details)}
