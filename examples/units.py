"""Libraries whose unit isn't a whole number of nanometres. Each case gives what differs from what is expected, which is written here by hand: the
two bars are 0 to 50 and 90 to 190 units wide, and 600 units high, so with n units in a nanometre each number is that divided by n.
"""
from choices import boundary, with_elements
from make import real
from outputs import CHECK, LISTING, Folder, differing

METRES = real(1e-9)
REFUSED = (
    "the database unit isn't a whole number of nm from 1 to 1000, as 0.5 isn't: export with a unit of 1 nm (KLayout: 'Database unit' 0.001; "
    "gdspy: precision=1e-9)"
)


def in_unit(folder, metres, elements=b""):
    """Writes the two bars, and further elements, with that unit."""
    text = folder.read("two-bars.gds")
    assert text.count(METRES) == 1
    folder.write("bars.gds", with_elements(text.replace(METRES, real(metres)), elements)[0])


def notes(lines):
    return [line for line in lines if line.startswith(("note: ", "error: "))]


def is_checked(parts, listing, words=(), elements=b"", deck=None):
    """A check of the bars with so many units in a nanometre prints this, and says that the desk refuses the file."""
    with Folder() as folder:
        in_unit(folder, 1e-9 / parts, elements)
        if deck:
            folder.write("bars.deck", deck)
        status, printed, told = folder.run(*CHECK, *words, "bars.gds")
        note = f"note: the unit is 1/{parts} nm: the desk refuses this file"
        found = {"status": status, "printed": printed, "note": note in notes(told)}
        return differing(found, {"status": 1, "printed": listing, "note": True})


def of_bars(left, right, far, top):
    """The markers of the bars: both are too narrow, and too close."""
    lines = [f"w:V:0:0:{left}:0:{top}", f"w:V:0:{right}:{far}:0:{top}", f"s:V:0:{left}:{right}:0:{top}"]
    return f"OK {len(lines)}\n{''.join(f'{line} TOP{chr(10)}' for line in lines)}".encode()


def is_refused(metres, words, sentence, deck=None):
    """It is refused with status 4 and that sentence alone, and no output is written."""
    with Folder() as folder:
        in_unit(folder, metres)
        if deck:
            folder.write("bars.deck", deck)
        before = folder.names()
        status, printed, told = folder.run(*CHECK, *words, "bars.gds")
        found = {"status": status, "printed": printed, "told": told, "names": folder.names()}
        return differing(found, {"status": 4, "printed": b"", "told": [f"error: {sentence}"], "names": before})


def is_whole_alone(option, *value, told=None):
    told = told or option
    sentence = f"bars.gds: the unit is 1/2 nm, and {told} takes whole nm: export with a unit of 1 nm, or check without {told}"
    return is_refused(5e-10, [option, *value], sentence)


def is_unsaid():
    """Of whole nanometres nothing is said."""
    with Folder() as folder:
        in_unit(folder, 1e-9)
        status, printed, told = folder.run(*CHECK, "bars.gds")
        found = {"status": status, "printed": printed, "notes": notes(told)}
        return differing(found, {"status": 1, "printed": LISTING, "notes": []})


# On layer 2, from -3 to 4 and from -7 to 120.
BELOW = boundary(2, [(-3, -7), (4, -7), (4, 120), (-3, 120), (-3, -7)])

CASES = {
    "a unit of 0.5 nm": lambda: is_checked(2, of_bars(25, 45, 95, 300)),
    "a unit of 0.25 nm": lambda: is_checked(4, of_bars(12.5, 22.5, 47.5, 150)),
    "a unit of 0.125 nm": lambda: is_checked(8, of_bars(6.25, 11.25, 23.75, 75)),
    "a unit of 0.1 nm": lambda: is_checked(10, of_bars(5, 9, 19, 60)),
    "a unit of 0.001 nm": lambda: is_checked(1000, b"OK 1\ns:V:0:0.05:0.09:0:0.6 TOP\n", deck=b"tile 256\nspace s 1/0 51\n"),
    "coordinates below 0 in a unit of 0.5 nm": lambda: is_checked(
        2, b"OK 1\nv:V:0:-1.5:2:-3.5:60 TOP\n", elements=BELOW, deck=b"tile 256\nwidth v 2/0 5\n"
    ),
    "coordinates above -1 nm in a unit of 0.1 nm": lambda: is_checked(
        10, b"OK 1\nv:V:0:-0.3:0.4:-0.7:12 TOP\n", elements=BELOW, deck=b"tile 256\nwidth v 2/0 1\n"
    ),
    "one marker of each rule in a unit of 0.5 nm": lambda: is_checked(
        2, b"OK 2\nw:V:0:0:25:0:300 TOP\ns:V:0:25:45:0:300 TOP\n", ["--limit", "1"]
    ),
    "numbers by rule in a unit of 0.5 nm": lambda: is_checked(2, b"w 2\ns 1\nall 3\n", ["--summary"]),
    "tiles in a unit of 0.5 nm": lambda: is_checked(2, of_bars(25, 45, 95, 300), ["--tile", "256"]),
    "layers left out in a unit of 0.5 nm": lambda: is_checked(2, of_bars(25, 45, 95, 300), ["--skip-layers", "2/0"], BELOW),
    "the greatest distance in a unit of 0.1 nm": lambda: is_checked(10, b"OK 1\ns:V:0:5:9:0:60 TOP\n", deck=b"tile 256\nspace s 1/0 6553\n"),
    "a distance beyond the greatest": lambda: is_refused(
        1e-10, [], "rule s: 6554 nm are 65540 parts of 1/10 nm, and a rule has at most 65535: export with a unit of 1 nm", b"tile 256\nspace s 1/0 6554\n"
    ),
    "a unit of 1/3 nm": lambda: is_refused(1e-9 / 3, [], f"bars.gds: unit at byte 42: {REFUSED}"),
    "a unit of 1/1024 nm": lambda: is_refused(1e-9 / 1024, [], f"bars.gds: unit at byte 42: {REFUSED}"),
    "a unit of 1.5 nm": lambda: is_refused(1.5e-9, [], f"bars.gds: unit at byte 42: {REFUSED}"),
    "a report in a unit of 0.5 nm": lambda: is_whole_alone("--report", "out"),
    "a picture in a unit of 0.5 nm": lambda: is_whole_alone("--picture", "out"),
    "a marker in a unit of 0.5 nm": lambda: is_whole_alone("--marker", "w:V:0:0:25:0:300", "--picture", "out", told="--picture"),
    "all faults in a unit of 0.5 nm": lambda: is_whole_alone("--faults"),
    "faulty elements left out in a unit of 0.5 nm": lambda: is_whole_alone("--skip-faulty"),
    "structures left out in a unit of 0.5 nm": lambda: is_whole_alone("--skip-unreached"),
    "a part in a unit of 0.5 nm": lambda: is_whole_alone("--tiles", "1/1", told="--tiles"),
    "a unit of 1 nm": is_unsaid,
}
