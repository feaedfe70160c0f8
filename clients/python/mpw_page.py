"""Writes what a session sees of shapes and markers as one page for a browser, by the template page.html.

The template says what its data is: reply lines as they came, as JSON. Nothing is computed here, so another program can
fill in the same template.
"""
import json
import os
from typing import Iterable

from mpw_desk import Desk, State

TEMPLATE = os.path.join(os.path.dirname(os.path.abspath(__file__)), "page.html")
DATA = "@DATA@"  # in the template, once


def shapes_of(desk, cells, placements):
    """The lines of `shapes` of each cell that is drawn: of those that are placed, if that is known, else of all."""
    placed = {words.split(" ")[0] for words in placements}
    drawn = [cell for cell in cells if not placed or cell in placed]
    return [[cell, desk.ask("shapes", cell)] for cell in drawn]


def data_of(desk: Desk, placements: Iterable[str] = (), deck: str = "", made: str = "") -> dict:
    """Asks a desk for what its session sees. A placement is the words after `place`; the deck is its text."""
    status, placements = desk.status(), list(placements)
    is_finished = status.state is State.FINISHED
    cells = desk.ask("cells")
    return {
        "made": made,
        "user": desk.whoami().user,
        "status": str(status),
        "deck": [line for line in deck.split("\n") if line],
        "placements": placements,
        "cells": cells,
        "shapes": shapes_of(desk, [line.split(" ")[0] for line in cells], placements),
        "markers": desk.ask("markers") if is_finished else [],
        "waivers": desk.ask("waivers") if is_finished else [],
    }


def json_text(data: dict) -> str:
    """Data as JSON that no HTML parser takes for a tag or a comment, whatever names are in it."""
    text = json.dumps(data, separators=(",", ":"))
    return text.replace("<", "\\u003c").replace(">", "\\u003e").replace("&", "\\u0026")


def page_of(data: dict) -> str:
    """The page of such data."""
    with open(TEMPLATE, encoding="utf-8") as file:
        before, after = file.read().split(DATA)
    return before + json_text(data) + after
