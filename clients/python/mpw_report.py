"""Writes markers as a report database of KLayout's, in the form of `mpw check --report`, with their waivers as tags.

A signed waiver is KLayout's own tag `waived`, which its marker browser shows; who asked and who signed are tags too. A
report has what the session sees in full at that time, and no more.
"""
from typing import List, Tuple

HEAD = """<?xml version="1.0" encoding="utf-8"?>
<report-database>
 <description>{description}</description>
 <original-file/>
 <generator>mpw-ask</generator>
 <top-cell>{top}</top-cell>
 <tags>
{tags} </tags>
 <categories>
{categories} </categories>
 <cells>
  <cell>
   <name>{top}</name>
   <variant/>
   <references>
   </references>
  </cell>
 </cells>
 <items>
"""
TAG = """  <tag>
   <name>{name}</name>
   <description>{description}</description>
  </tag>
"""
CATEGORY = """  <category>
   <name>{name}</name>
   <description>{description}</description>
   <categories>
   </categories>
  </category>
"""
ITEM = """  <item>
   {tags}
   <category>{category}</category>
   <cell>{top}</cell>
   <visited>false</visited>
   <multiplicity>1</multiplicity>
   <image/>
   <values>
    <value>{value}</value>
   </values>
  </item>
"""
END = """ </items>
</report-database>
"""


def escaped(text: str) -> str:
    """A text as that of an XML element."""
    return text.replace("&", "&amp;").replace("<", "&lt;").replace(">", "&gt;")


def quoted(name: str) -> str:
    """A name between quotes, as KLayout reads one; a backslash stands before a quote and before a backslash."""
    return "'" + name.replace("\\", "\\\\").replace("'", "\\'") + "'"


def micrometres(nm: int) -> str:
    """A length in micrometres, without zeros at its end."""
    whole, part = divmod(abs(nm), 1000)
    return ("-" if nm < 0 else "") + f"{whole}.{part:03}".rstrip("0").rstrip(".")


def edge_pair(key) -> str:
    """The pair of a marker's edges: the first along its rows, the second back."""

    def point(x, row):
        return ",".join(map(micrometres, (x, row) if key.axis.value == "V" else (row, x)))

    first = f"({point(key.x1, key.y0)};{point(key.x1, key.y1)})"
    second = f"({point(key.x2, key.y1)};{point(key.x2, key.y0)})"
    return f"edge-pair: {first}|{second}"


def rules_of(deck: str) -> List[Tuple[str, str]]:
    """The rules of a deck, each by its name and its line. Only the desk finds faults: a line without a name is left
    out here."""
    lines = [line for line in deck.split("\n")[1:] if len(line.split(" ")) > 1]
    return [(line.split(" ")[1], line) for line in lines]


def categories_of(deck, markers):
    """A category for each rule of the deck in order, then for each other one that has a marker, with its name
    alone."""
    found = dict(rules_of(deck))
    for rule in [*(marker.key.rule for marker in markers.full), *(masked.rule for masked in markers.masked)]:
        found.setdefault(rule, rule)
    return found


def tags_of(waiver):
    """The tags of a marker's waiver."""
    if waiver is None:
        return []
    asked = [f"asked by {waiver.asker}"]
    return asked if waiver.signer is None else ["waived", *asked, f"signed by {waiver.signer}"]


def item_of(marker, waiver, top):
    """The item of a marker."""
    tags = ",".join(tag if tag == "waived" else quoted(tag) for tag in tags_of(waiver))
    return ITEM.format(
        tags=f"<tags>{escaped(tags)}</tags>" if tags else "<tags/>", category=escaped(quoted(marker.key.rule)),
        top=escaped(top), value=edge_pair(marker.key))


def report_of(markers, waivers, deck="", top="wafer") -> str:
    """The report of what `Desk.markers` and `Desk.waivers` gave, under a cell of that name. The deck's text gives the
    rules without a marker, and each rule's line as its description."""
    of_marker = {waiver.key: waiver for waiver in waivers}
    tags = dict.fromkeys(tag for waiver in waivers for tag in tags_of(waiver))
    head = HEAD.format(
        description=escaped(f"Markers of {top}"), top=escaped(top),
        tags="".join(TAG.format(name=escaped(tag), description="") for tag in tags),
        categories="".join(CATEGORY.format(name=escaped(rule), description=escaped(line))
                           for rule, line in categories_of(deck, markers).items()))
    return head + "".join(item_of(marker, of_marker.get(marker.key), top) for marker in markers.full) + END
