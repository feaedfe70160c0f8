"""The script of a small shuttle of three firms, whose cells refer to one another, up to the verdict."""
import os

from stand_in import TOP

from scripts.written import Written, array, library, rectangle, single, two_bytes

METAL, VIA = (1, 0), (2, 0)
DECK = b"tile 256\nwidth w 1/0 11\nspace s 1/0 21\nseparation v 1/0 2/0 5\n"
KEYS = "w:V:0:0:10:0:100", "w:V:0:500:510:0:100"

POLICY = """open root abc
activate officer
adduser ann ann
adduser bob bob
adduser cyd cyd
adduser carl carl
adduser dora dora
addrole alpha
addrole beta
addrole gamma
addrole reading
addrole shuttle
addrole signing
grant submit pad alpha
grant submit chip beta
grant use pad beta
grant submit seal gamma
grant use pad gamma
grant use chip gamma
grant read pad reading
grant read chip reading
grant read seal reading
grant place pad shuttle
grant place chip shuttle
grant place seal shuttle
grant deck desk shuttle
grant run desk shuttle
grant waive desk shuttle
grant sign desk signing
grant verdict desk signing
inherit shuttle reading
inherit signing reading
assign ann alpha
assign bob beta
assign cyd gamma
assign carl shuttle
assign dora signing
close
""".encode()

TURNED = {"R0": (), "M90": (Written(0x1A, 1, two_bytes(0x8004)), Written(0x1C, 5, bytes([0x42, 0x5A]) + bytes(6)))}


def turned(reference, orientation):
    """A reference with an orientation."""
    return [*reference[:2], *TURNED[orientation], *reference[2:]]


def text_element():
    """A text that contains a name, which no desk reads."""
    return [Written(0x0C, 0), Written(0x06, 6, b"NOBODY"), Written(0x10, 3, bytes(8)), Written(0x19, 6, b"label!"), Written(0x11, 0)]


def pad(width):
    """A bar, an array of vias, a text and an element with properties."""
    bar = rectangle(METAL, 0, 0, width, 100)
    bar = [*bar[:-1], Written(0x2B, 2, two_bytes(1)), Written(0x2C, 6, b"mine"), bar[-1]]
    vias = array("VIA", 3, 2, (200, 0), (290, 0), (200, 60))
    return library({"TOP": [bar, vias, text_element()], "VIA": [rectangle(VIA, 0, 0, 10, 10)], "ALONE": [single("nobody", 0, 0)]})


def chip():
    """The cell of another firm twice, once turned, and a structure of a name that the other has too."""
    return library({
        "VIA": [rectangle(METAL, 0, 0, 30, 30)],
        "TOP": [turned(single("pad", 0, 0), "M90"), single("VIA", 1000, 0), array("pad", 2, 2, (3000, 0), (4000, 0), (3000, 2000))]})


def seal():
    """A library with a unit of 5 nm, whose top has the name of the wafer's."""
    return library({"WAFER": [rectangle(METAL, 0, 0, 20, 20), turned(single("chip", 100, 200), "M90"), single("pad", 0, 2000)]}, 5)


def session(user, role, *requests):
    lines = [f"open {user} {user}", f"activate {role}", *requests, "close"]
    return b"".join(line if isinstance(line, bytes) else f"{line}\n".encode() for line in lines)


def with_payload(words, payload):
    return f"{words} {len(payload)}\n".encode() + payload


PLACES = "place seal a M270 -5000 7000", "place pad b R180 0 0", "place chip c R90 20000 0", "place pad d R0 500 0"


def three_firms(*places):
    """The shuttle up to its run. The chip refers to the first version of the pad, and the seal to the second one."""
    return b"".join([
        POLICY,
        session("ann", "alpha", with_payload("submit pad TOP", pad(20))),
        session("bob", "beta", with_payload("submit chip TOP", chip())),
        session("ann", "alpha", with_payload("submit pad TOP", pad(10))),
        session("cyd", "gamma", with_payload("submit seal WAFER", seal())),
        session("ann", "alpha", with_payload("submit pad TOP", pad(10))),
        session("carl", "shuttle", *(places or PLACES), with_payload("deck", DECK), "run", "markers")])


def signed(keys):
    """The waivers of markers."""
    return session("carl", "shuttle", *(f"waive {key}" for key in keys)) + session(
        "dora", "signing", *(f"sign {key}" for key in keys), "verdict")


def large_shuttle():
    """The script of examples/shuttle.txt."""
    with open(os.path.join(TOP, "examples", "shuttle.txt"), "rb") as file:
        return file.read()
