"""Scripts that end in a line or a payload that is too long or cut off, or that have other bytes anywhere."""
from .policies import policy_script
from .runs import run_script
from .script import Script

LENGTHS = [
    b"16777217", b"016777217", b"+16777217", b"0", b"4", b"3", b"99999999999999999999999999", b"00", b"16777217 ",
    b"-1", b"",
]


def long_line(random):
    """A line of as many bytes as there may be, or of more."""
    return b"x" * random.choice([4095, 4096, 4097, 4098, 5000]) + random.choice([b"", b"\n", b"\nwhoami\n"])


def cut_deck(_):
    """A deck that ends inside its payload."""
    return b"deck 10\ntil"


def cut_library(random):
    """A library of another length than its bytes have."""
    return b"submit pad TOP %d\nabc\n" % random.choice([4, 5, 16777216, 16777217, 99999999, 10**40])


def no_line_feed(_):
    """A last line may lack its line feed."""
    return b"whoami"


def any_length(random):
    """Lengths in other spellings, or too great ones."""
    return b"deck %s\nabc\nwhoami\n" % random.choice(LENGTHS)


def empty_lines(random):
    """Empty lines, and carriage returns, which part no words."""
    return b"\n\nwhoami\r\nwhoami\n" + random.choice([b"", b" ", b"\r"])


def behind_payload(random):
    """The next line begins right behind a payload."""
    return b"deck 8\ntile 256" + random.choice([b"whoami\n", b"\nwhoami\n", b"", b"\n"])


def long_name(random):
    """A name that is none, in a line that is hardly too long."""
    return b"open " + b"u" * random.choice([4091, 4088, 4090]) + b" abc\nwhoami"


ENDS = [long_line, cut_deck, cut_library, no_line_feed, any_length, empty_lines, behind_payload, long_name]


def changed(random, text):
    """Some bytes of a script are others, often such as part words or lines."""
    text = bytearray(text)
    for _ in range(random.choice([1, 3, 8])):
        text[random.randrange(len(text))] = random.choice([32, 10, 0, 45, 48, 58, random.randrange(256)])
    return bytes(text)


def cut_anywhere(random, text):
    """A script that ends anywhere."""
    return text[:random.randrange(len(text) + 1)]


def first_lines(random):
    """A script of the policy or of a run, or only some lines."""
    if random.random() < .3:
        return random.choice([policy_script, run_script])(random)
    script = Script(random)
    script.begin()
    script.grant_to_officer("desk", "deck")
    script.grant_to_officer("pad", "submit")
    return script


def connection_script(random):
    """The first lines of a script, with an end or with other bytes."""
    script = first_lines(random)
    end = random.choice([*ENDS, changed, cut_anywhere])
    if end in ENDS:
        script.raw(end(random))
    else:
        script.parts = [end(random, script.text)]
    return script
