"""Lines that are no requests, or hardly: each tries one condition of the form of a request."""
LINES = [
    "", " ", "frob", "whoami ", " whoami", "WHOAMI", "open", "open a", "open  a b", "close x", "ssd s", "ssd s 2",
    "ssd", "grant read pad", "grant read pad a b", "submit pad TOP", "submit pad TOP x", "submit pad TOP -1",
    "submit pad TOP 01", "submit - TOP 3", "submit pad - 3", "deck", "deck x", "deck 01", "deck +1", "deck 1 1",
    "place pad l R0 0", "place pad l R45 0 0", "place pad l r0 0 0", "place pad l R0 -0 0", "place pad l R0 00 0",
    "place pad l R0 1073741825 0", "place pad l R0 0 -1073741825", "place pad - R0 0 0", "place pad l R0 +1 0",
    "waive x", "waive a:V:0:1:2:3", "waive a:X:0:1:2:3:4", "waive a:V:2:1:2:3:4", "waive a:V:00:1:2:3:4",
    "waive a:V:0:1:2:3:-0", "waive :V:0:1:2:3:4", "waive -:V:0:1:2:3:4", "waive a:V:0:1:2:3:1073741825",
    "sign a:V:0:-1073741824:2:3:1073741824", "sign a:b:V:0:1:2:3:4", "sign a:v:0:1:2:3:4", "waive a:V:0:01:2:3:4",
    "waive a:V:0::2:3:4", "status\r", "st\x00atus", "verdict x", "trail x", "unplace pad", "unplace pad - ", "cells -",
    "drop -", "activate -", "\x80", "waive a:H:1:5:4:3:2", "sign ::V:0:1:1:1:1", "waive " + "r" * 255 + ":V:0:1:2:3:4",
    "waive " + "r" * 256 + ":V:0:1:2:3:4", "grant read desk a", "grant admin pad officer", "revoke sign pad a",
    "grant  read pad a", "open root abc ", "open - abc", "open root -", "adduser - abc", "adduser zed " + "t" * 256,
    "x" * 4096,
]


def write_junk(script):
    """Writes one of them."""
    script.line(script.choice(LINES))
