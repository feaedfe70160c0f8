"""Waivers after a new run: which earlier markers are there again, and the lines for whoever signs.

What `lines_of` gives is a list for a person: comments, and a line `sign KEY` for each waiver that may be signed again.
The signer takes out what may not stay, and gives the rest to mpw-ask, which leaves the comments out.
"""
from mpw_desk import BadWord, Key, shortened

REPLIES = "OK ", "masked "
REQUESTS = "waive", "sign"


def earlier_of(text, key_of=Key.of):
    """The keys of an earlier listing, each with the words after it. Replies to `waivers` and to `markers` are listings,
    and so are lines `waive KEY` and `sign KEY`."""
    found = {}
    for number, line in enumerate(text.split("\n"), 1):
        if not line or line.startswith("#") or line.startswith(REPLIES):
            continue
        words = line.split(" ")
        if words[0] in REQUESTS:
            del words[0]
        try:
            found[key_of("".join(words[:1]))] = words[1:]
        except BadWord:
            raise ValueError(f"line {number}: {shortened(line)}: no line of markers or waivers: give a reply to one of these as it was printed") from None
    return found


def before(words):
    """What an earlier listing says of a waiver; nothing if it lists markers."""
    is_waiver = (words[:1], len(words)) in ((["asked"], 2), (["signed"], 3))
    return f", before {' '.join(words)}" if is_waiver else ""


def lines_of(carried, earlier):
    """The lines for whoever signs."""
    masked = {it.rule for it in carried.masked}
    counts = (len(carried.again) + len(carried.left), "found again"), (len(carried.gone), "gone"), (len(carried.new), "new")
    yield "# " + ", ".join(f"{count} {what}" for count, what in counts)
    for key in carried.gone:
        yield f"# gone{' or masked' if key.rule in masked else ''}: {key}"
    for marker in carried.new:
        yield f"# new: {marker.key} {' '.join(marker.cells)}"
    for marker in carried.left:
        yield f"# not asked for yet: {marker.key} {' '.join(marker.cells)}"
    for waiver in carried.again:
        yield from waiver_lines(waiver, earlier.get(waiver.key, []))


def waiver_lines(waiver, words):
    """The lines of a waiver: one that is signed needs nothing more."""
    if waiver.signer is not None:
        yield f"# signed: {waiver.key} by {waiver.signer}"
        return
    yield f"# asked by {waiver.asker}{before(words)}"
    yield f"sign {waiver.key}"
