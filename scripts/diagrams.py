#!/usr/bin/env python3
"""Draws the two diagrams of docs/architecture.md: the crates by subject, and the way of a request.

  scripts/diagrams.py            writes docs/images/crates.svg and docs/images/request.svg
  scripts/diagrams.py --check    prints which of them differs, and which crate the page lacks or has in another section; scripts/cited.py does so too

Subjects, crates and arrows come from crates.txt: a line `## NAME` begins a subject. An arrow leads from a subject to one that it uses,
unless arrows lead there through another subject. Where a subject is drawn is in PLACES, and the steps of a request are in STEPS; each
function that a step names must be in its crate.
"""
import glob
import os
import re
import sys
from xml.sax.saxutils import escape

TOP = os.path.dirname(os.path.dirname(os.path.abspath(__file__)))
PAGE = "docs/architecture.md"
# Where a subject is drawn: its row, and its left and right edge.
PLACES = {
    "Laws": (0, 20, 290), "Store": (0, 325, 595), "Desk programs": (0, 630, 900),
    "Connections": (1, 325, 595),
    "Check programs": (2, 20, 290), "Desk": (2, 325, 595), "Help": (2, 630, 900),
    "Tiles and columns": (3, 20, 290), "Requests and replies": (3, 325, 595),
    "Flat layouts": (4, 20, 290), "Rules and markers": (4, 325, 595), "Policy": (4, 630, 860),
    "GDSII": (5, 20, 290),
    "Values": (6, 20, 900),
}
# These use nearly all crates, so they aren't drawn.
UNDRAWN = ("Golden tests",)
WIDTH, GAP, LINE, TITLE, SMALL = 920, 46, 17, 15, 12.5
LANES = ((20, 285, "A connection's thread"), (310, 610, "Under the lock: one event"), (635, 900, "A worker's thread"))
ROW, TALL, HEAD = 110, 84, 40
# The steps: lane, row, name, what happens, and each crate with its functions.
STEPS = {
    "accept": (0, 0, "Accept a connection", ("A free thread serves it.",), "mpw_service: accept_all"),
    "read": (0, 1, "Read a request", ("A line, and its payload.",), "mpw_serve: serve_connection; mpw_wire: read_request"),
    "lock": (1, 1, "Take a turn, then the lock", ("The call is registered and counted.",), "mpw_desk: ask_in, event_in"),
    "prepare": (1, 2, "Prepare", ("The request's decision table decides.", "All that needs memory is made here."), "mpw_core: prepare, make_ready"),
    "store": (1, 3, "Store", ("One row a change, in one transaction.",), "mpw_store_keeper: append; mpw_store: append"),
    "file": (0, 3, "The store's file", ("It has the accepted changes.",), ""),
    "commit": (1, 4, "Commit", ("The changed tables move in.", "It takes no memory and can't fail."), "mpw_core: settle, commit"),
    "write": (0, 4, "Write the reply", ("Line by line, to the socket.",), "mpw_reply_text: write_reply"),
    "job": (2, 4, "Get a job", ("A cut of the layout, or a tile.",), "mpw_desk: worker, next_job"),
    "work": (2, 2, "Do the job", ("Windows, or the tile's markers.",), "mpw_work: do_job"),
    "hand": (2, 1, "Hand in an event", ("A call for a job, or its result.",), "mpw_desk: hand_in"),
}
WAYS = (("accept", "read"), ("read", "lock"), ("lock", "prepare"), ("prepare", "store"), ("store", "file"), ("store", "commit"), ("commit", "write"),
        ("commit", "job"), ("job", "work"), ("work", "hand"), ("hand", "lock"))
STYLE = """<style>
.page { fill: #ffffff } .lane { fill: #eef1f5 } .box { fill: #f7f9fc; stroke: #57606a } .file { fill: #fff6d6; stroke: #57606a }
text { fill: #1f2328; font-family: sans-serif; font-size: 12.5px } .name { font-size: 15px; font-weight: bold }
.code { font-family: monospace; font-size: 12.5px; fill: #0a4a8f } .way { stroke: #57606a; stroke-width: 1.5; fill: none } .tip { fill: #57606a }
@media (prefers-color-scheme: dark) {
.page { fill: #0d1117 } .lane { fill: #161b22 } .box { fill: #1f2630; stroke: #8b949e } .file { fill: #3a3210; stroke: #8b949e }
text { fill: #e6edf3 } .code { fill: #8cc4ff } .way { stroke: #a5adb7 } .tip { fill: #a5adb7 }
}
</style>
<defs><marker id="tip" viewBox="0 0 10 10" refX="10" refY="5" markerWidth="9" markerHeight="9" orient="auto"><path class="tip" d="M0,1 L10,5 L0,9 z"/></marker></defs>"""


def subjects():
    """The crates of each subject in order, and the crates that each crate uses."""
    found, uses, now = {}, {}, None
    with open(f"{TOP}/crates.txt", encoding="utf-8") as file:
        for line in file:
            crate, colon, names = line.partition("#")[0].partition(":")
            if line.startswith("## "):
                now = found.setdefault(line[3:].strip(), [])
            elif colon:
                now.append(crate.split()[0])
                uses[crate.split()[0]] = names.split()
    return found, uses


def arrows(found, uses):
    """The pairs of a subject and another one that it uses, without those that lead through a third."""
    home = {crate: subject for subject, crates in found.items() for crate in crates}
    pairs = {(home[crate], home[used]) for crate in uses for used in uses[crate] if used in home} - {(it, it) for it in found}
    reached = {it: {it} for it in found}
    for _ in found:
        for user, used in pairs:
            reached[user] |= reached[used]
    loops = [it for it in found if any(it in reached[used] for user, used in pairs if user == it)]
    if loops:
        sys.exit(f"crates.txt: subjects use each other: {', '.join(loops)}")
    return sorted(pair for pair in pairs if not any(pair[1] in reached[used] for user, used in pairs if user == pair[0] and used != pair[1]))


def fitting(text, size, room, is_code=False):
    """The text, if it is narrow enough."""
    if len(text) * size * (0.605 if is_code or size == TITLE else 0.55) > room:
        sys.exit(f"scripts/diagrams.py: too long for its box: {text}")
    return escape(text)


def text_at(x, y, text, kind="", middle=False):
    anchor = ' text-anchor="middle"' if middle else ""
    mark = f' class="{kind}"' if kind else ""
    return f'<text x="{x:g}" y="{y:g}"{mark}{anchor}>{text}</text>'


def box_at(left, top, right, bottom, kind="box"):
    return f'<rect class="{kind}" x="{left:g}" y="{top:g}" width="{right - left:g}" height="{bottom - top:g}" rx="6"/>'


def line_at(points):
    return f'<path class="way" marker-end="url(#tip)" d="M{" L".join(f"{x:g},{y:g}" for x, y in points)}"/>'


def picture(high, title, parts):
    """A whole picture."""
    head = f'<svg xmlns="http://www.w3.org/2000/svg" viewBox="0 0 {WIDTH} {high:g}" width="{WIDTH}" height="{high:g}">\n<title>{title}</title>'
    return "\n".join([head, STYLE, f'<rect class="page" width="{WIDTH}" height="{high:g}"/>', *parts, "</svg>"]) + "\n"


def columns_of(subject):
    return 2 if PLACES[subject][2] - PLACES[subject][1] < 400 else 3


def boxes_of(found):
    """The box of each subject that is drawn: left, top, right and bottom; and the height of all."""
    lines = {it: -(-len(found[it]) // columns_of(it)) for it in PLACES}
    boxes, top = {}, 20
    for row in range(1 + max(place[0] for place in PLACES.values())):
        here = [it for it in PLACES if PLACES[it][0] == row]
        for it in here:
            boxes[it] = PLACES[it][1], top, PLACES[it][2], top + 38 + LINE * lines[it]
        top = max(boxes[it][3] for it in here) + GAP
    return boxes, top - GAP + 20


def crosses(start, end, box):
    """Whether a line comes nearer than 5 to a box: it is tried at 60 points."""
    left, top, right, bottom = box
    points = [(start[0] + (end[0] - start[0]) * i / 60, start[1] + (end[1] - start[1]) * i / 60) for i in range(61)]
    return any(left - 5 < x < right + 5 and top - 5 < y < bottom + 5 for x, y in points)


def ports(box, other):
    """Where an arrow between two boxes may begin: on the side, if the boxes are in one row, and else on the edge towards the other one."""
    left, top, right, bottom = box
    if top == other[1]:
        return [(left if other[0] < left else right, top + part * 12) for part in range(2, 5)]
    return [(left + (right - left) * part / 24, bottom if other[1] > top else top) for part in range(1, 24)]


def way_between(boxes, user, used, taken):
    """The shortest straight line between two boxes that crosses no third and isn't near the ends of others."""
    others = [box for it, box in boxes.items() if it not in (user, used)]
    ends = [(start, end) for start in ports(boxes[user], boxes[used]) for end in ports(boxes[used], boxes[user])]
    # straight down, if one box is over the other
    left, _, right, _ = boxes[used]
    ends += [(start, (start[0], end[1])) for start, end in ends if left + 5 < start[0] < right - 5 and start[1] != end[1]]

    def cost(pair):
        (x, y), (u, v) = pair
        near = sum(abs(a - p) + abs(b - q) < 40 for a, b in pair for p, q in taken)
        return abs(x - u) + abs(y - v) + 400 * near + abs(x - sum(boxes[user][::2]) / 2) / 8
    for start, end in sorted(ends, key=cost):
        if not any(crosses(start, end, box) for box in others):
            return start, end
    sys.exit(f"scripts/diagrams.py: no straight line from {user} to {used}: change PLACES")


def crates_picture():
    """The crates by subject, with the arrows between subjects."""
    found, uses = subjects()
    unplaced = [it for it in found if it not in PLACES and it not in UNDRAWN] + [it for it in PLACES if it not in found]
    if unplaced:
        sys.exit(f"scripts/diagrams.py: PLACES and crates.txt have different subjects: {', '.join(unplaced)}")
    boxes, high = boxes_of(found)
    parts, taken = [], []
    for user, used in arrows({it: found[it] for it in PLACES}, {crate: uses[crate] for it in PLACES for crate in found[it]}):
        way = way_between(boxes, user, used, taken)
        taken += way
        parts.append(line_at(way))
    for it, (left, top, right, bottom) in boxes.items():
        wide = (right - left - 24) / columns_of(it)
        parts += [box_at(left, top, right, bottom), text_at(left + 12, top + 22, fitting(it, TITLE, right - left - 24), "name")]
        for number, crate in enumerate(found[it]):
            at = left + 12 + wide * (number % columns_of(it)), top + 42 + LINE * (number // columns_of(it))
            parts.append(text_at(*at, fitting(crate.removeprefix("mpw_"), SMALL, wide, True), "code"))
    return picture(high, "The crates of mpw by subject: an arrow leads to what a subject uses", parts)


def place_of(step):
    """The box of a step: left, top, right and bottom."""
    lane, row = STEPS[step][:2]
    top = HEAD + 20 + ROW * row
    return LANES[lane][0] + 12, top, LANES[lane][1] - 12, top + TALL


def way_of(before, after):
    """The line between two steps: across from lane to lane, or down, or up."""
    left, top, right, bottom = place_of(before)
    other = place_of(after)
    if left == other[0]:
        return ((left + right) / 2, bottom if top < other[1] else top), ((left + right) / 2, other[1] if top < other[1] else other[3])
    return (left if other[0] < left else right, (top + bottom) / 2), (other[2] if other[0] < left else other[0], (top + bottom) / 2)


def request_picture():
    """The way of a request, from the socket to the reply."""
    high = HEAD + 30 + ROW * (1 + max(step[1] for step in STEPS.values()))
    parts = []
    for left, right, title in LANES:
        parts += [box_at(left, 14, right, high - 14, "lane"), text_at((left + right) / 2, 40, fitting(title, TITLE, right - left), "name", True)]
    parts += [line_at(way_of(*way)) for way in WAYS]
    for step, (_, _, name, texts, functions) in STEPS.items():
        left, top, right, bottom = place_of(step)
        parts.append(box_at(left, top, right, bottom, "box" if functions else "file"))
        parts.append(text_at(left + 10, top + 21, fitting(name, TITLE, right - left - 20), "name"))
        at = top + 40
        for text, kind in [(it, "") for it in texts] + [(it, "code") for it in functions.split("; ") if it]:
            parts.append(text_at(left + 10, at, fitting(text, SMALL, right - left - 12, kind == "code"), kind))
            at += LINE
    return picture(high, "The way of a request from the socket to the reply", parts)


def lost_functions():
    """The functions of steps that their crates don't have."""
    for *_, functions in STEPS.values():
        for crate, _, names in (part.partition(": ") for part in functions.split("; ") if part):
            text = "".join(open(path, encoding="utf-8").read() for path in glob.glob(f"{TOP}/crates/{crate}/src/**/*.rt", recursive=True))
            yield from (f"{crate} has no function {name}" for name in names.split(", ") if not re.search(rf"\bfn {name}\b", text))


def lost_crates():
    """The crates that the page lacks, or has in the section of another subject, and the files of its rows that aren't there."""
    with open(f"{TOP}/{PAGE}", encoding="utf-8") as file:
        sections = {part.partition("\n")[0]: part for part in re.split(r"^#+ ", file.read(), flags=re.M)}
    rows = [(name, *row) for name, part in sections.items() for row in re.findall(r"^\| \[?`((?:mpw|gate)_\w+)`(?:\]\(\S+\))? \| .* \| `([^`]+)` \|$", part, re.M)]
    listed = [(crate, name) for name, crate, _ in rows]
    wanted = [(crate, subject) for subject, crates in subjects()[0].items() for crate in crates]
    yield from (f"{PAGE} has no row of {crate} in the section {subject}" for crate, subject in wanted if (crate, subject) not in listed)
    yield from (f"{PAGE} has a row of {crate} in the section {name}" for crate, name in listed if (crate, name) not in wanted)
    yield from (f"{PAGE}: {crate} has no {path}" for _, crate, path in rows if not os.path.isfile(f"{TOP}/crates/{crate}/{path}"))


def faults():
    """What is wrong with the pictures and the page, a line each."""
    found = [*lost_functions(), *lost_crates()]
    for path, text in made().items():
        with open(f"{TOP}/{path}", encoding="utf-8") as file:
            found += [] if file.read() == text else [f"{path} isn't what scripts/diagrams.py draws"]
    return found


def made():
    """The text of each picture, by its path."""
    return {"docs/images/crates.svg": crates_picture(), "docs/images/request.svg": request_picture()}


def main(words):
    if words == ["--check"]:
        found = faults()
        print("".join(f"{fault}\n" for fault in found), end="")
        return 1 if found else 0
    if words:
        print(__doc__, file=sys.stderr)
        return 2
    for path, text in made().items():
        with open(f"{TOP}/{path}", "w", encoding="utf-8") as file:
            file.write(text)
    return 0


if __name__ == "__main__":
    sys.exit(main(sys.argv[1:]))
