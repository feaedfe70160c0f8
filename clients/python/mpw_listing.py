"""Reads a listing of markers line by line, and writes it for other tools: JUnit XML, JSON lines and Markdown.

Of each rule only the number of markers, the shortest distance and the first markers are held, however long a listing is.
"""
import json
import re

from mpw_desk import BadWord, Marker, marker_of, shortened
from mpw_report import escaped, rules_of

JUNIT = """<?xml version="1.0" encoding="utf-8"?>
<testsuites tests="{tests}" failures="{failures}">
 <testsuite name="{name}" tests="{tests}" failures="{failures}" errors="0" skipped="0">
{cases} </testsuite>
</testsuites>
"""
PASSED = """  <testcase classname="{name}" name="{rule}"/>
"""
FAILED = """  <testcase classname="{name}" name="{rule}">
   <failure message="{message}" type="{check}">{text}</failure>
  </testcase>
"""
NO_RULE = "no markers"  # the test case of a listing without markers, if no deck is given


class BadListing(ValueError):
    """A text is no whole listing of markers."""


def markers_in(lines):
    """The markers of a listing, and of a desk's listing the numbers of masked ones. The first line says how many follow."""
    lines = (line[:-1] if line.endswith("\n") else line for line in lines)
    found = re.fullmatch(r"OK (0|[1-9][0-9]{0,11})", next(lines, ""))
    if not found:
        raise BadListing("line 1: no listing: give all that mpw check printed, from its first line, OK and a number, on")
    count, number = int(found.group(1)), 1
    for number, line in enumerate(lines, 2):
        try:
            yield marker_of(line)
        except (BadWord, ValueError):
            raise BadListing(f"line {number}: {shortened(line)}: no marker: give a listing as it was printed, without --summary") from None
    if number - 1 != count:
        raise BadListing(f"the listing isn't whole: it has {number - 1} of {count} lines: run the check again")


class Rule:
    """A rule with what a listing has of it. The deck's line gives its check and the distance that it asks for."""

    def __init__(self, name, line=""):
        words = line.split(" ")
        self.name, self.check, self.asked = name, words[0] or "marker", int(words[-1]) if words[-1].isdecimal() else None
        self.count = self.known = self.masked = 0
        self.shortest, self.first = None, []

    def add(self, marker, most):
        """Counts a marker that isn't known, and holds it if it is one of the first."""
        self.count += 1
        distance = marker.key.distance
        self.shortest = distance if self.shortest is None else min(distance, self.shortest)
        if len(self.first) < most:
            self.first.append(marker)

    @property
    def has_failed(self):
        return self.count + self.masked > 0

    @property
    def message(self):
        """What a listing has of the rule, in words."""
        parts = [counted(self.count, "marker")] if self.count or not self.masked else []
        parts += [counted(self.masked, "masked marker")] if self.masked else []
        parts += [counted(self.known, "known marker")] if self.known else []
        if self.count:
            asked = "" if self.asked is None else f"; the rule asks for {self.asked} nm"
            return f"{', '.join(parts)}, the shortest distance is {self.shortest} nm{asked}"
        return ", ".join(parts)

    @property
    def left_out(self):
        """How many markers aren't held."""
        return self.count - len(self.first)


def counted(count, what):
    return f"{count} {what}{'' if count == 1 else 's'}"


class Summary:
    """The rules of a listing: those of the deck in its order, and then any other that has markers. `known` has the accepted markers,
    which are only counted."""

    def __init__(self, deck="", most=100, known=None):
        self.rules, self.most, self.known = {name: Rule(name, line) for name, line in rules_of(deck)}, most, known

    def add(self, marker):
        """Counts a marker, or the masked ones of a rule. Whether it is known."""
        name = marker.key.rule if isinstance(marker, Marker) else marker.rule
        if name not in self.rules:
            self.rules[name] = Rule(name)
        rule = self.rules[name]
        if not isinstance(marker, Marker):
            rule.masked += marker.number
            if self.known is not None:
                self.known.masked += marker.number
            return False
        if self.known is not None and self.known.has(str(marker.key), marker_text(marker)):
            rule.known += 1
            return True
        rule.add(marker, self.most)
        return False

    @property
    def count(self):
        return sum(rule.count for rule in self.rules.values())

    @property
    def masked(self):
        return sum(rule.masked for rule in self.rules.values())


# JSON lines.


def json_line(marker, is_known=None):
    """A marker as an object, with whether it is known if that was asked; or the masked ones of a rule."""
    if not isinstance(marker, Marker):
        return json.dumps({"rule": marker.rule, "masked": marker.number})
    key = marker.key
    return json.dumps({
        "key": str(key), "rule": key.rule, "axis": key.axis.value, "side": key.side, "x1": key.x1, "x2": key.x2,
        "y0": key.y0, "y1": key.y1, "distance": key.distance, "box": key.box, "cells": marker.cells,
        **({} if is_known is None else {"known": is_known})})


# JUnit XML.


def quoted(text):
    """A text as it may be in an attribute."""
    return escaped(text).replace('"', "&quot;")


def marker_text(marker):
    return " ".join([str(marker.key), *marker.cells])


def failure_text(rule):
    """The first markers of a rule, a line each."""
    lines = [marker_text(marker) for marker in rule.first]
    if rule.left_out:
        lines.append(f"and {rule.left_out} more")
    return "\n".join(lines)


def case_of(rule, name):
    """The test case of a rule."""
    if not rule.has_failed:
        return PASSED.format(name=quoted(name), rule=quoted(rule.name))
    return FAILED.format(
        name=quoted(name), rule=quoted(rule.name), message=quoted(rule.message), check=quoted(rule.check),
        text=escaped(failure_text(rule)))


def junit_of(summary, name):
    """A test case for each rule, which fails if the rule has markers that aren't known."""
    rules = list(summary.rules.values()) or [Rule(NO_RULE)]
    failures = sum(rule.has_failed for rule in rules)
    cases = "".join(case_of(rule, name) for rule in rules)
    return JUNIT.format(name=quoted(name), tests=len(rules), failures=failures, cases=cases)


# Markdown.


def code(text):
    """A text as code in a table: between backquotes if it has no character that Markdown reads, else by numbers."""
    if re.fullmatch(r"[A-Za-z0-9_.:/+-]+", text):
        return f"`{text}`"
    return "<code>" + re.sub("[^A-Za-z0-9]", lambda found: f"&#{ord(found.group())};", text) + "</code>"


def row(*fields):
    return f"| {' | '.join(map(str, fields))} |\n"


def rule_row(rule, has_known):
    """The row of a rule in the table of rules."""
    shortest = "" if rule.shortest is None else f"{rule.shortest} nm"
    asked = "" if rule.asked is None else f"{rule.asked} nm"
    known = [rule.known] if has_known else []
    return row(code(rule.name), rule.check, rule.count, *known, rule.masked, shortest, asked)


def marker_table(rule):
    """The first markers of a rule."""
    rows = "".join(row(code(str(marker.key)), ", ".join(map(code, marker.cells))) for marker in rule.first)
    more = f"\n{rule.left_out} more aren't listed here.\n" if rule.left_out else ""
    return f"\n## {code(rule.name)}\n\n| Marker | Cells |\n|-|-|\n{rows}{more}"


def markdown_of(summary, name):
    """A table of the rules, and the first markers of each. With known markers the others are the new ones."""
    has_known = summary.known is not None
    known = f", {summary.known.found} known" if has_known else ""
    masked = f", {summary.masked} masked" if summary.masked else ""
    head = f"# {name}: {counted(summary.count, 'new marker' if has_known else 'marker')}{known}{masked}\n"
    if not summary.rules:
        return head
    rows = "".join(rule_row(rule, has_known) for rule in summary.rules.values())
    columns = ["Rule", "Check", *(["New", "Known"] if has_known else ["Markers"]), "Masked", "Shortest", "Asked for"]
    table = f"\n{row(*columns)}{'|-' * len(columns)}|\n{rows}"
    return head + table + "".join(marker_table(rule) for rule in summary.rules.values() if rule.first)
