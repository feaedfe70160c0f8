"""What a check is given besides its files: a side for the tiles, the structure if none is named, layers and structures that are left out, and all faults.
Each case gives what differs from what is expected, which is written here by hand: an element's bytes are laid out below, so the places of
its records are known.
"""
import os
import struct

from outputs import CHECK, HERE, LISTING, Folder, differing

ENDSTR = bytes([0, 4, 7, 0])
UNNAMED = ["--deck", "bars.deck", "two-bars.gds"]


def record(kind, data_type, data=b""):
    return struct.pack(">HBB", 4 + len(data), kind, data_type) + data


def boundary(layer, points):
    """22 bytes stand before the points' data: BOUNDARY takes 4, LAYER and DATATYPE 6 each, and XY's head 4."""
    data = b"".join(struct.pack(">ii", *point) for point in points)
    return record(8, 0) + record(13, 2, struct.pack(">H", layer)) + record(14, 2, bytes(2)) + record(16, 3, data) + record(17, 0)


def triangle(layer, x):
    """An edge of it is at 45 degrees. It lies far from the two bars."""
    return boundary(layer, [(x, 9000), (x + 90, 9000), (x + 90, 9090), (x, 9000)])


def with_elements(text, elements):
    """The library with further elements at the end of its last structure, and where these begin."""
    place = text.rindex(ENDSTR)
    return text[:place] + elements + text[place:], place


def summary_left_out(lines):
    return [line for line in lines if " tiles, " not in line and not line.startswith("times: ")]


def by_sides():
    """The pad ring's markers are those of its own deck by each side."""
    differ = []
    with open(os.path.join(HERE, "pad-ring.markers"), "rb") as file:
        markers = file.read()
    for side in (6157, 20000, 1 << 30):
        with Folder() as folder:
            words = ["check", "--deck", os.path.join(HERE, "pad-ring.deck"), "--tile", str(side), os.path.join(HERE, "pad-ring.gds")]
            status, printed, _ = folder.run(*words)
            differ += differing({"status": status, "printed": printed}, {"status": 1, "printed": markers})
    return differ


def is_no_side(word):
    with Folder() as folder:
        status, printed, told = folder.run(*CHECK, "--tile", word, "two-bars.gds")
        sentence = "error: --tile takes the side of the tiles in nm, from 256 to 1073741824"
        return differing({"status": status, "printed": printed, "told": told}, {"status": 2, "printed": b"", "told": [sentence]})


def is_part_alone(words, sentence):
    with Folder() as folder:
        status, printed, told = folder.run(*CHECK, "--tiles", "1/1", *words, "two-bars.gds")
        return differing({"status": status, "printed": printed, "told": told}, {"status": 2, "printed": b"", "told": [sentence]})


def is_only_top():
    with Folder() as folder:
        status, printed, told = folder.run("check", *UNNAMED)
        found = {"status": status, "printed": printed, "told": summary_left_out(told)}
        return differing(found, {"status": 1, "printed": LISTING, "told": []})


def is_only_top_misnamed():
    """The only structure has a blank in its name. That is the library's fault, and memory didn't run out for the name."""
    with Folder() as folder:
        text, name = folder.read("two-bars.gds"), record(6, 6, b"TOP\0")
        folder.write("two-bars.gds", text.replace(name, record(6, 6, b"T P\0")))
        status, printed, told = folder.run("check", *UNNAMED)
        found = {"status": status, "printed": printed, "told": [line.partition(": a name is")[0] for line in told]}
        return differing(found, {"status": 4, "printed": b"", "told": [f"error: two-bars.gds: badname at byte {text.index(name)}"]})


def are_names_inside():
    """Names in a text and a node are those of no structure and no reference, so TOP is the only structure."""
    with Folder() as folder:
        text, _ = with_elements(folder.read("two-bars.gds"), NAMES_INSIDE)
        folder.write("two-bars.gds", text)
        status, printed, told = folder.run("check", *UNNAMED)
        found = {"status": status, "printed": printed, "told": summary_left_out(told)}
        return differing(found, {"status": 1, "printed": LISTING, "told": []})


def are_several_tops():
    """A second structure, OTHER, that nothing places."""
    with Folder() as folder:
        text = folder.read("two-bars.gds")
        place = text.rindex(record(4, 0))
        other = record(5, 2, bytes(24)) + record(6, 6, b"OTHER\0") + ENDSTR
        folder.write("two-bars.gds", text[:place] + other + text[place:])
        status, printed, told = folder.run("check", *UNNAMED)
        lines = [
            "note: two-bars.gds: structures that nothing places: TOP OTHER",
            "error: two-bars.gds: not just one structure is placed by no other: name the one to check with --top",
        ]
        return differing({"status": status, "printed": printed, "told": told}, {"status": 4, "printed": b"", "told": lines})


def with_structure(text, name, elements):
    """The library with a further structure of that name, of an even number of letters, and where its elements begin."""
    place = text.rindex(record(4, 0))
    begin = record(5, 2, bytes(24)) + record(6, 6, name)
    return text[:place] + begin + elements + ENDSTR + text[place:], place + len(begin)


def of_structure(elements, words, status, printed, told):
    """What comes of a library with a structure LOGO besides, which nothing places, of these elements; `told` is a function of where they begin."""
    with Folder() as folder:
        text, place = with_structure(folder.read("two-bars.gds"), b"LOGO", elements)
        folder.write("two-bars.gds", text)
        ended = folder.run(*CHECK, *words, "two-bars.gds")
        found = {"status": ended[0], "printed": ended[1], "told": summary_left_out(ended[2])}
        return differing(found, {"status": status, "printed": printed, "told": told(place)})


def is_behind_unreached():
    """LOGO isn't reached and stands before TOP: a fault of TOP has its byte in the file, and not in what is left of it."""
    with Folder() as folder:
        text, place = with_elements(folder.read("two-bars.gds"), ONE)
        begin = text.index(record(5, 2, bytes(24))[:4])
        head = record(5, 2, bytes(24)) + record(6, 6, b"LOGO")
        logo = head + ONE + ENDSTR
        folder.write("two-bars.gds", text[:begin] + logo + text[begin:])
        status, printed, told = folder.run(*CHECK, "--faults", "--skip-unreached", "two-bars.gds")
        of_logo, of_top = begin + len(head) + 16, place + len(logo) + 16
        wanted = [fault(of_logo, 5, 0, "LOGO"), unreached(1, 1), fault(of_top, 5, 0), slanted(of_top)]
        return differing({"status": status, "printed": printed, "told": told}, {"status": 4, "printed": b"", "told": wanted})


def has_times():
    """The times of a check's parts come after the summary, in their order, each with whole ms."""
    with Folder() as folder:
        _, _, told = folder.run(*CHECK, "two-bars.gds")
        parts = [part.split() for part in told[-1].removeprefix("times: ").split(", ")]
        found = {"names": [part[0] for part in parts], "units": {part[2] for part in parts}, "numbers": all(part[1].isdigit() for part in parts)}
        return differing(found, {"names": ["read", "cut", "check", "stitch", "write"], "units": {"ms"}, "numbers": True})


LEFT_OUT = (
    "note: two-bars.gds: elements left out, on skipped layers: 1; the desk reads them too, and refuses the file if one of them has a"
    " fault"
)
SIZES = "a record has too much or too little data: polygons of more than 8191 points have to be split (gdspy: .fracture(max_points=8190))"
MISPLACED = "the format has no such record at this place: export without what isn't geometry, as properties"
SPLIT = (
    "an element's points stand in several XY records: export polygons and paths of at most 8191 points, each in one XY record (KLayout: switch off"
    " 'Multi-XY record mode for boundaries'; gdspy: .fracture(max_points=8190))"
)
SLANTED = (
    "an edge is neither horizontal nor vertical, as one at 45 degrees: only such edges are checked; draw it in steps, or export without that shape"
)


def of_elements(elements, words, status, printed, told):
    """What comes of a library with these elements besides; `told` is a function of where they begin."""
    with Folder() as folder:
        text, place = with_elements(folder.read("two-bars.gds"), elements)
        folder.write("two-bars.gds", text)
        ended = folder.run(*CHECK, *words, "two-bars.gds")
        found = {"status": ended[0], "printed": ended[1], "told": summary_left_out(ended[2])}
        return differing(found, {"status": status, "printed": printed, "told": told(place)})


def slanted(at, structure="TOP"):
    return f"error: two-bars.gds: notmanhattan at byte {at} in {structure}: {SLANTED}"


def fault(at, layer, x, structure="TOP"):
    return f"fault: two-bars.gds: notmanhattan at byte {at} in {structure}, layer {layer}/0, at {x},9000"


def reference(kind, x, y, turned=b""):
    """A reference to ARM at a point, as SREF, or as AREF of one column and row; after STRANS and ANGLE if it is turned."""
    points = [(x, y)] if kind == 10 else [(x, y), (x + 500, y), (x, y + 500)]
    counts = b"" if kind == 10 else record(19, 2, struct.pack(">HH", 1, 1))
    place = b"".join(struct.pack(">ii", *point) for point in points)
    return record(kind, 0) + record(18, 6, b"ARM\0") + turned + counts + record(16, 3, place) + record(17, 0)


# STRANS and an ANGLE of 90 degrees, which is 5A hex times 16 ^ 2 over 256.
QUARTER = record(26, 1, bytes(2)) + record(28, 5, bytes([0x42, 0x5A, 0, 0, 0, 0, 0, 0]))


def is_reported(references, in_top, box):
    """ARM, with a triangle whose points are 0,9000 and 90,9000 and 90,9090, is placed by these references; whether its fault has the top's coordinates, and
    which box, is worked out by hand."""
    with Folder() as folder:
        text, _ = with_elements(folder.read("two-bars.gds"), references)
        place = text.rindex(record(4, 0))
        arm = record(5, 2, bytes(24)) + record(6, 6, b"ARM\0")
        folder.write("two-bars.gds", text[:place] + arm + triangle(5, 0) + ENDSTR + text[place:])
        at = place + len(arm) + 16
        status, printed, told = folder.run(*CHECK, "--faults", "--report", "report", "two-bars.gds")
        report = folder.read("report").decode()
        found = {
            "status": status,
            "printed": printed,
            "told": told,
            "items": report.count("<item>"),
            "text": report.count(f"<value>text: 'notmanhattan at byte {at} in ARM'</value>"),
            "boxes": [line.strip() for line in report.splitlines() if "box: " in line],
            "description": "<description>Markers of TOP; the library has faults, so nothing is checked</description>" in report,
        }
        behind = f", in TOP at {in_top}" if in_top else ""
        wanted = {
            "status": 4,
            "printed": b"",
            "told": [fault(at, 5, 0, "ARM") + behind, slanted(at, "ARM")],
            "items": 1,
            "text": 1,
            "boxes": [f"<value>box: {box}</value>"] if box else [],
            "description": True,
        }
        return differing(found, wanted)


def is_unnamed():
    """ARM is placed after a record without its data. TOP is the only structure that nothing places all the same, so ARM's fault has its coordinates too."""
    with Folder() as folder:
        text, front = with_elements(folder.read("two-bars.gds"), WITHOUT_DATA + reference(10, 100, 200))
        text, place = with_structure(text, b"ARM\0", ONE)
        folder.write("two-bars.gds", text)
        status, printed, told = folder.run("check", "--deck", "bars.deck", "--faults", "two-bars.gds")
        lines = [
            f"fault: two-bars.gds: badsize at byte {front + 4} in TOP, at 0,5000",
            fault(place + 16, 5, 0, "ARM") + ", in TOP at 100,9200",
            f"error: two-bars.gds: badsize at byte {front + 4} in TOP: {SIZES}",
        ]
        return differing({"status": status, "printed": printed, "told": told}, {"status": 4, "printed": b"", "told": lines})


def is_behind_left_out():
    """A square of TOP whose WIDTH has no data is left out by its layer; what is printed then is the fault after it, in its own structure."""
    with Folder() as folder:
        head = record(14, 2, bytes(2))
        text, _ = with_elements(folder.read("two-bars.gds"), boundary(5, SQUARE).replace(head, head + record(15, 3)))
        text, place = with_structure(text, b"LOGO", triangle(6, 0))
        folder.write("two-bars.gds", text)
        status, printed, told = folder.run(*CHECK, "--skip-layers", "5/0", "two-bars.gds")
        found = {"status": status, "printed": printed, "told": told}
        return differing(found, {"status": 4, "printed": b"", "told": [LEFT_OUT, slanted(place + 16, "LOGO")]})


def unexpected(at, sentence):
    return f"error: two-bars.gds: unexpected at byte {at} in TOP: {sentence}"


def is_described(rules, elements, description):
    """What the report's description says of what is looked at."""
    with Folder() as folder:
        folder.write("bars.deck", b"tile 256\n" + rules)
        text, _ = with_elements(folder.read("two-bars.gds"), elements)
        folder.write("two-bars.gds", text)
        folder.run(*CHECK, "--report", "report", "two-bars.gds")
        found = [line.strip() for line in folder.read("report").decode().splitlines() if line.startswith(" <description>")]
        return differing({"description": found}, {"description": [f"<description>Markers of TOP{description}</description>"]})


def are_stitched(limit, lines, left):
    """The whole of one part lists as many markers of each rule as a check does."""
    with Folder() as folder:
        folder.write("bars.deck", b"tile 256\nwidth w 1/0 700\nspace s 1/0 51\n")
        _, part, _ = folder.run(*CHECK, "--tiles", "1/1", "two-bars.gds")
        folder.write("part", part)
        status, printed, told = folder.run("stitch", "--limit", limit, "--report", "report", "part")
        report = folder.read("report").decode()
        found = {"status": status, "printed": printed.decode().splitlines(), "notes": [line for line in told if line.startswith("note: ")]}
        found["items"] = report.count("<item>")
        notes = [f"note: rule w: {left} of 4 markers left out"] if left else []
        return differing(found, {"status": 1, "printed": [f"OK {len(lines)}", *lines], "notes": notes, "items": len(lines)})


def unreached(count, faults):
    """What is printed of structures that are left out."""
    told = f"note: two-bars.gds: structures left out, which the checked one doesn't reach: {count}"
    return told + (f", with faults: {faults}; the desk reads them, and refuses the file as it stands" if faults else "; the desk reads them")


def is_limited(limit, lines, left):
    """Under a width of 700 each of the two bars has a pair of edges on either axis, and so two markers; between them stands one of the space."""
    with Folder() as folder:
        folder.write("bars.deck", b"tile 256\nwidth w 1/0 700\nspace s 1/0 51\n")
        words = ["--limit", limit, "--report", "report"]
        status, printed, told = folder.run(*CHECK, *words, "two-bars.gds")
        report = folder.read("report").decode()
        found = {
            "status": status,
            "printed": printed.decode().splitlines(),
            "told": summary_left_out(told),
            "items": report.count("<item>"),
            "left out": report.count(f"; {left} of 4 markers left out"),
            "file": "<original-file>two-bars.gds</original-file>" in report,
        }
        notes = [f"note: rule w: {left} of 4 markers left out"] if left else []
        wanted = {"status": 1, "printed": [f"OK {len(lines)}", *lines], "told": notes, "items": len(lines), "left out": 1 if left else 0, "file": True}
        return differing(found, wanted)


def is_summed(words, told, items):
    """The numbers of the same markers in the place of their listing: four of the width, one of the space and none of the separation, in the deck's order,
    and five in all. The report has as many items as without."""
    with Folder() as folder:
        folder.write("bars.deck", b"tile 256\nspace s 1/0 51\nwidth w 1/0 700\nseparation p 1/0 2/0 9\n")
        status, printed, lines = folder.run(*CHECK, "--summary", "--report", "report", *words, "two-bars.gds")
        found = {"status": status, "printed": printed, "told": summary_left_out(lines), "items": folder.read("report").count(b"<item>")}
        idle = "note: rule p looks at nothing: layer 2/0 has no shapes"
        return differing(found, {"status": 1, "printed": b"s 1\nw 4\np 0\nall 5\n", "told": [idle, *told], "items": items})


def is_summed_clean(rules, printed):
    """Nothing is found: the bars are 40 apart, and each is at least 50 wide."""
    with Folder() as folder:
        folder.write("bars.deck", b"tile 256\n" + rules)
        status, text, _ = folder.run(*CHECK, "--summary", "two-bars.gds")
        return differing({"status": status, "printed": text}, {"status": 0, "printed": printed})


def is_summed_with_picture():
    """Beside a picture, by another side, and without the elements on a layer that has none: the two markers of the deck as it is."""
    with Folder() as folder:
        words = ["--summary", "--picture", "picture", "--tile", "300", "--skip-layers", "9/0", "--skip-unreached", "--faults"]
        status, printed, _ = folder.run(*CHECK, *words, "two-bars.gds")
        found = {"status": status, "printed": printed, "drawn": b"<svg " in folder.read("picture")}
        return differing(found, {"status": 1, "printed": b"w 1\ns 1\nall 2\n", "drawn": True})


def is_unsummed():
    """A full device is a fault of the output."""
    with Folder() as folder:
        with open("/dev/full", "wb") as output:
            status, _, told = folder.run(*CHECK, "--summary", "two-bars.gds", output=output)
        sentence = "error: the standard output can't be written: no space left: free some, or write to another disk"
        return differing({"status": status, "told": told[1:]}, {"status": 3, "told": [sentence]})


def is_no_limit(word):
    with Folder() as folder:
        status, printed, told = folder.run(*CHECK, "--limit", word, "two-bars.gds")
        sentence = "error: --limit takes a number of markers, from 1 to 4294967295"
        return differing({"status": status, "printed": printed, "told": told}, {"status": 2, "printed": b"", "told": [sentence]})


WIDE = ["w:V:0:0:50:0:600 TOP", "w:V:0:90:190:0:600 TOP", "w:H:0:0:600:0:50 TOP", "w:H:0:0:600:90:190 TOP"]
GAP = "s:V:0:50:90:0:600 TOP"


def is_colon(word):
    """A rule whose name has a colon has a sentence of its own, and another line hasn't."""
    with Folder() as folder:
        folder.write("bars.deck", f"tile 256\n{word} a:b 1/0 50\n".encode())
        status, printed, told = folder.run(*CHECK, "two-bars.gds")
        colon = "a rule's name has a colon, which parts the words of a marker's key: take another sign for it, as _"
        line = "a line is 'tile SIDE', or 'CHECK NAME LAYER.. DISTANCE' with width, space, separation or enclosing; no line is empty or a comment"
        sentence = colon if word == "width" else line
        lines = [f"error: bars.deck: line 2: word: {sentence}"]
        return differing({"status": status, "printed": printed, "told": told}, {"status": 4, "printed": b"", "told": lines})


# A triangle's XY begins 16 bytes after its front, and it has 56 bytes: 4, 6, 6, 4 and 32 of four points, and 4.
ONE = triangle(5, 0)
TWO = triangle(5, 0) + boundary(1, [(0, 5000), (90, 5000), (90, 5090), (0, 5090), (0, 5000)]) + triangle(6, 300)
# The square between them has five points: 64 bytes.
BEHIND = 56 + 64 + 16
# A square whose LAYER has no data: its BOUNDARY takes 4 bytes, LAYER as many, DATATYPE 6, XY 4 and 40 of five points, ENDEL 4.
SQUARE = [(0, 5000), (90, 5000), (90, 5090), (0, 5090), (0, 5000)]
WITHOUT_DATA = boundary(1, SQUARE).replace(record(13, 2, struct.pack(">H", 1)), record(13, 2))
DAMAGED = WITHOUT_DATA + ONE
# Its points in an XY of 44 bytes.
POINTS = record(16, 3, b"".join(struct.pack(">ii", *point) for point in SQUARE))
# A text with the name of a structure in it, and a node with that of a reference: reading passes over both.
NAMES_INSIDE = record(12, 0) + record(6, 6, b"OTHER\0") + record(17, 0) + record(21, 0) + record(18, 6, b"TOP\0") + record(17, 0)

CASES = {
    "tiles of other sides": by_sides,
    "a side that is too small": lambda: is_no_side("255"),
    "a side that is no number": lambda: is_no_side("1e3"),
    "a part with a side": lambda: is_part_alone(["--tile", "300"], "error: a part is of columns, and has no tiles: --tile is for a check of all"),
    "a part without layers": lambda: is_part_alone(
        ["--skip-layers", "5/0"], "error: a part is of the whole library: --skip-layers is for a check of all"
    ),
    "a structure that isn't named": is_only_top,
    "a structure whose name isn't one": is_only_top_misnamed,
    "a structure that isn't named, with names in a text and a node": are_names_inside,
    "structures of which none is named": are_several_tops,
    "the times of a check's parts": has_times,
    "an element with a fault": lambda: of_elements(ONE, [], 4, b"", lambda at: [slanted(at + 16)]),
    "an element with a fault, left out": lambda: of_elements(ONE, ["--skip-layers", "5/0"], 1, LISTING, lambda at: [LEFT_OUT]),
    "an element on another layer than those left out": lambda: of_elements(
        ONE, ["--skip-layers", "5/1,4/0"], 4, b"", lambda at: [LEFT_OUT.replace(": 1;", ": 0;"), slanted(at + 16)]
    ),
    "a fault after an element that is left out": lambda: of_elements(
        TWO, ["--skip-layers", "5/0"], 4, b"", lambda at: [LEFT_OUT, slanted(at + BEHIND)]
    ),
    "all faults": lambda: of_elements(
        TWO, ["--faults"], 4, b"", lambda at: [fault(at + 16, 5, 0), fault(at + BEHIND, 6, 300), slanted(at + 16)]
    ),
    "all faults after an element that is left out": lambda: of_elements(
        TWO, ["--faults", "--skip-layers", "5/0"], 4, b"", lambda at: [LEFT_OUT, fault(at + BEHIND, 6, 300), slanted(at + BEHIND)]
    ),
    "all faults of a library without one": lambda: of_elements(b"", ["--faults"], 1, LISTING, lambda at: []),
    "all faults after a record without its data": lambda: of_elements(
        DAMAGED, ["--faults"], 4, b"", lambda at: [
            f"fault: two-bars.gds: badsize at byte {at + 4} in TOP, at 0,5000",
            fault(at + 62 + 16, 5, 0),
            f"error: two-bars.gds: badsize at byte {at + 4} in TOP: {SIZES}",
        ]
    ),
    "all faults where no structure is named, after a record without its data": is_unnamed,
    "a fault after one that is left out": is_behind_left_out,
    "a fault after a name in a text": lambda: of_elements(
        NAMES_INSIDE + ONE, [], 4, b"", lambda at: [slanted(at + len(NAMES_INSIDE) + 16)]
    ),
    "points before the layer": lambda: of_elements(
        record(8, 0) + POINTS + record(17, 0), [], 4, b"", lambda at: [unexpected(at + 4, MISPLACED)]
    ),
    "points in two records": lambda: of_elements(
        boundary(1, SQUARE).replace(POINTS, POINTS + POINTS), [], 4, b"", lambda at: [unexpected(at + 60, SPLIT)]
    ),
    "a structure that isn't reached": lambda: of_structure(ONE, [], 4, b"", lambda at: [slanted(at + 16, "LOGO")]),
    "a structure that isn't reached, left out": lambda: of_structure(
        ONE, ["--skip-unreached"], 1, LISTING, lambda at: [fault(at + 16, 5, 0, "LOGO"), unreached(1, 1)]
    ),
    "all faults behind a structure that isn't reached": is_behind_unreached,
    "a structure without faults that isn't reached, left out": lambda: of_structure(
        b"", ["--skip-unreached"], 1, LISTING, lambda at: [unreached(1, 0)]
    ),
    "a structure that is the only one, with its faults": lambda: of_elements(ONE, ["--skip-unreached"], 4, b"", lambda at: [slanted(at + 16)]),
    "elements and structures left out": lambda: of_structure(
        ONE, ["--skip-unreached", "--skip-layers", "5/0"], 1, LISTING, lambda at: [LEFT_OUT, unreached(1, 0)]
    ),
    "a part of some structures": lambda: is_part_alone(
        ["--skip-unreached"], "error: a part is of the whole library: --skip-unreached is for a check of all"
    ),
    "one marker of each rule": lambda: is_limited("1", [*WIDE[:1], GAP], 3),
    "three markers of each rule": lambda: is_limited("3", [*WIDE[:3], GAP], 1),
    "a limit that leaves none out": lambda: is_limited("4", [*WIDE, GAP], 0),
    "a limit that is none": lambda: is_no_limit("0"),
    "a part with a limit": lambda: is_part_alone(["--limit", "1"], "error: a part has all markers of its columns: give --limit to 'mpw stitch'"),
    "numbers by rule": lambda: is_summed([], [], 5),
    "numbers by rule, and a report of one marker of each": lambda: is_summed(["--limit", "1"], ["note: rule w: 3 of 4 markers left out"], 2),
    "numbers of rules without markers": lambda: is_summed_clean(b"space s 1/0 40\nwidth all 1/0 50\n", b"s 0\nall 0\nall 0\n"),
    "numbers under a deck without rules": lambda: is_summed_clean(b"", b"all 0\n"),
    "numbers beside the other choices": is_summed_with_picture,
    "numbers on a full device": is_unsummed,
    "numbers of a library with a fault": lambda: of_elements(ONE, ["--summary"], 4, b"", lambda at: [slanted(at + 16)]),
    "a part with numbers": lambda: is_part_alone(["--summary"], "error: a part has all markers of its columns: --summary is for a check of all"),
    "one marker of each rule of parts": lambda: are_stitched("1", [*WIDE[:1], GAP], 3),
    "all markers of parts": lambda: are_stitched("4", [*WIDE, GAP], 0),
    "a fault in a structure that is placed once": lambda: is_reported(reference(10, 100, 200), "100,9200", "(0.1,9.2;0.19,9.29)"),
    "a fault in a structure that is turned": lambda: is_reported(reference(10, 100, 200, QUARTER), "-8900,200", "(-8.99,0.2;-8.9,0.29)"),
    "a fault in a structure in an array of one": lambda: is_reported(reference(11, 100, 200), "100,9200", "(0.1,9.2;0.19,9.29)"),
    "a fault in a structure that is placed twice": lambda: is_reported(reference(10, 100, 200) + reference(10, 900, 200), None, None),
    "a fault in a structure that is placed nowhere": lambda: is_reported(b"", None, None),
    "a report of a check that looks at all": lambda: is_described(b"space s 1/0 51\n", b"", ""),
    "a report under a deck without rules": lambda: is_described(
        b"", b"", "; the deck has no rules, so nothing is looked at; no rule names layer 1/0, which has 2 shapes"
    ),
    "a report of a rule that looks at nothing": lambda: is_described(
        b"space s 1/0 51\nspace t 2/0 9\n", boundary(7, [(0, 5000), (90, 5000), (90, 5090), (0, 5090), (0, 5000)]),
        "; rule t looks at nothing: layer 2/0 has no shapes; no rule names layer 7/0, which has 1 shapes",
    ),
    "a colon in a rule's name": lambda: is_colon("width"),
    "a colon in a line that is none": lambda: is_colon("area"),
}
