#!/usr/bin/env python3
"""Times waivers and signatures of the proved program: how many lines a second a deck engineer's script is answered.

  bench/waivers.py [N..]     arrays of N by N cells, 64 and 360 where none is given

Needs crates/mpw_main/out/mpw_main. Each script submits, places and runs such an array on a new desk, whose markers are waived
by 2000 lines `waive KEY` of one user and signed by 2000 lines `sign KEY` of another, keys from all over the listing. The time of
the lines is the whole script's less that of the script without them.
"""
import subprocess
import sys
import time

import layouts
import runs

PROGRAM = f"{layouts.TOP}/crates/mpw_main/out/mpw_main"
LINES = 2000
DECK = b"tile 8192\nwidth w 1/0 56\nspace s 1/0 51\n"


def setup(library):
    lines = [b"open root abc", b"activate officer"]
    lines += [b"grant %s chip officer" % word for word in (b"submit", b"read", b"place")]
    lines += [b"grant %s desk officer" % word for word in (b"deck", b"run", b"waive", b"verdict")]
    lines += [b"adduser ann abc", b"addrole quality", b"assign ann quality", b"grant read chip quality", b"grant sign desk quality"]
    body = b"".join(line + b"\n" for line in lines)
    body += b"submit chip TOP %d\n" % len(library) + library
    body += b"place chip a R0 0 0\ndeck %d\n" % len(DECK) + DECK
    return body + b"run\n"


def serve(script):
    words = [PROGRAM, "script", "--officer", "root", "--digest", layouts.DIGEST]
    began = time.monotonic()
    ran = subprocess.run(words, input=script, stdout=subprocess.PIPE, check=True)
    return time.monotonic() - began, ran.stdout


def some_of(keys):
    return [keys[k * len(keys) // LINES] for k in range(LINES)]


def row(cells):
    start = setup(runs.array(cells))
    _, listing = serve(start + b"markers\n")
    keys = [line.split()[0] for line in listing.split(b"\n") if line[:2] in (b"w:", b"s:")]
    chosen = some_of(keys)
    waive = b"".join(b"waive " + key + b"\n" for key in chosen)
    sign = b"close\nopen ann abc\nactivate quality\n" + b"".join(b"sign " + key + b"\n" for key in chosen)
    alone, _ = serve(start)
    asked, text = serve(start + waive)
    signed, told = serve(start + waive + sign)
    wrong = [line for line in told.split(b"\n") if line and not line.startswith((b"OK", b"version", b"run"))]
    rates = [f"{LINES / max(after - before, 0.001):,.0f}" for before, after in ((alone, asked), (asked, signed))]
    print(f"| {cells} by {cells} | {len(keys):,} | {alone:.2f} s | {rates[0]} | {rates[1]} | {len(wrong)} |", flush=True)


def main(words):
    print("| Array | Markers | Script without them | `waive` a second | `sign` a second | Not accepted |")
    print("|-|-|-|-|-|-|")
    for cells in [int(word) for word in words] or [64, 360]:
        row(cells)


if __name__ == "__main__":
    main(sys.argv[1:])
