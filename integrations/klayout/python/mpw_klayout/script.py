"""Reads the text of a DRC script of KLayout's: its statements, and the expressions that are calls, numbers and strings.

A DRC script is a Ruby program. This reader knows the part of Ruby in which rules are usually written. What it doesn't know
is None, never a guess: `deck` leaves such a line out, and says so.
"""
import html
import re
from fractions import Fraction
from typing import Iterator, List, NamedTuple, Optional, Tuple, Union
from xml.etree import ElementTree

TOKEN = re.compile(r"""
    (?P<comment>\#[^\n]*)
  | (?P<newline>[\n;])
  | (?P<blank>[ \t\r\f]+|\\\r?\n)
  | (?P<number>[0-9][0-9_]*(?:\.[0-9][0-9_]*)?(?:[eE][+-]?[0-9]+)?)
  | (?P<string>"(?:\\.|[^"\\\n])*"|'(?:\\.|[^'\\\n])*')
  | (?P<name>[@$]{0,2}[A-Za-z_]\w*(?:[?!](?!=))?)
  | (?P<sign>=[=>~]|[<>!]=|\*\*|&&|\|\||&\.|[-+*/%&|^]=|.)
""", re.VERBOSE)
LONG_TEXT = re.compile(r"""<<[~-]?(["']?)([A-Z]\w*)\1""")  # as <<END, up to a line END
OPEN, CLOSE = ("(", "["), (")", "]")
# A line that ends so goes on in the next one.
UNFINISHED = (",", ".", "=", "+", "-", "*", "/", "&", "&&", "||", "^", "<", ">", "==")


class Token(NamedTuple):
    """A word of the script, with its line, from 1."""

    kind: str
    text: str
    line: int


class Number(NamedTuple):
    """A number; a whole one is in database units, where it is a distance."""

    value: Fraction
    is_whole: bool


class Text(NamedTuple):
    """A string, between its quotes."""

    text: str


class Call(NamedTuple):
    """A name, or a method's name after its receiver; without arguments it may be a variable."""

    receiver: Optional["Node"]
    name: str
    arguments: Optional[Tuple[Optional["Node"], ...]]


Node = Union[Number, Text, Call]
Statement = List[Token]


def text_of(data: bytes) -> str:
    """The text of a script: a .drc file as it is, a .lydrc file without its XML."""
    if data.lstrip().startswith(b"<?xml"):
        return ElementTree.fromstring(data).findtext("text") or ""
    return data.decode("utf-8", "replace")


def path_of(tip: str) -> str:
    """The path in the tip of a tab of the macro editor: HTML with the kind in bold letters before the path."""
    return html.unescape(re.sub("<b>.*?</b>|<[^>]*>", "", tip)).strip()


def without_remarks(text: str) -> str:
    """The text with as many lines, but nothing between =begin and =end, nothing from __END__, and no long texts."""
    lines, end = [], None  # what the line is that ends a remark or a long text
    for line in text.split("\n"):
        if end is None and line.rstrip() == "__END__":
            break
        begun = re.match("=begin()", line) or LONG_TEXT.search(line)
        lines.append(line if end is None and not line.startswith("=begin") else "")
        if end is None and begun:
            end = begun.group(begun.lastindex) or "=end"
        elif end is not None and (line.strip() == end or end == "=end" and line.startswith(end)):
            end = None
    return "\n".join(lines)


def tokens(text: str) -> Iterator[Token]:
    """The tokens of a text, without blanks and comments."""
    line = 1
    for found in TOKEN.finditer(without_remarks(text)):
        if found.lastgroup not in ("comment", "blank"):
            yield Token(found.lastgroup, found.group(), line)
        line += found.group().count("\n")


def statements(text: str) -> List[Statement]:
    """The statements of a text. A line goes on if a bracket is open, if it ends so, or if the next one begins with a dot."""
    given, found, statement, depth = list(tokens(text)), [], [], 0
    for place, token in enumerate(given):
        if token.kind != "newline":
            depth += (token.text in OPEN) - (token.text in CLOSE)
            statement.append(token)
        elif statement and depth <= 0 and not goes_on(statement, token, given[place + 1:place + 9]):
            found.append(statement)
            statement, depth = [], 0
    return found + [statement] if statement else found


def goes_on(statement, token, following):
    """Whether a statement goes on after a line's end."""
    if token.text == ";":
        return False
    next_one = next((it for it in following if it.kind != "newline"), None)
    return statement[-1].text in UNFINISHED or (next_one is not None and next_one.text in (".", "&."))


def parts(given: Statement, separator: str = ",") -> List[Statement]:
    """The tokens between separators that no bracket has."""
    found, depth = [[]], 0
    for token in given:
        depth += (token.text in OPEN + ("{",)) - (token.text in CLOSE + ("}",))
        if token.text == separator and depth == 0:
            found.append([])
        else:
            found[-1].append(token)
    return found


def closing(given: Statement, start: int) -> Optional[int]:
    """The place of the bracket that closes the one at a place."""
    depth = 0
    for place in range(start, len(given)):
        depth += (given[place].text in OPEN) - (given[place].text in CLOSE)
        if depth == 0:
            return place
    return None


def arguments(given: Statement) -> Tuple[Optional[Node], ...]:
    """The expressions between commas."""
    return tuple(map(expression, parts(given))) if given else ()


def expression(given: Statement) -> Optional[Node]:
    """The expression that all of these tokens are, if it is a chain of calls, a number or a string."""
    node, place = primary(given)
    while node is not None and place + 1 < len(given) and given[place].text == "." and given[place + 1].kind == "name":
        node, place = call(given, place + 1, node)
    if node is not None and place < len(given):
        # A call without brackets, as `output "name"`.
        is_call = isinstance(node, Call) and node.arguments is None and given[place].kind in ("string", "number", "name")
        return node._replace(arguments=arguments(given[place:])) if is_call else None
    return node


def primary(given: Statement) -> Tuple[Optional[Node], int]:
    """What a chain of calls begins with, and the place after it."""
    if not given:
        return None, 0
    first = given[0]
    if first.kind == "number":
        return number(first.text), 1
    if first.kind == "string":
        return Text(first.text[1:-1]), 1
    if first.kind == "name":
        return call(given, 0, None)
    end = closing(given, 0) if first.text == "(" else None
    return (None, 0) if end is None else (expression(given[1:end]), end + 1)


def call(given: Statement, place: int, receiver: Optional[Node]) -> Tuple[Optional[Node], int]:
    """The call whose name is at a place, and the place after it."""
    name, behind = given[place].text, place + 1
    if behind == len(given) or given[behind].text != "(":
        return Call(receiver, name, None), behind
    end = closing(given, behind)
    return (None, behind) if end is None else (Call(receiver, name, arguments(given[behind + 1:end])), end + 1)


def number(word: str) -> Optional[Number]:
    """A number by its text. Ruby reads whole ones with a leading zero in base 8, so such a word is none here."""
    digits = word.replace("_", "")
    is_whole = digits.isdigit()
    return None if is_whole and digits.startswith("0") and digits != "0" else Number(Fraction(digits), is_whole)
