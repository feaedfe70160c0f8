#!/usr/bin/env python3
"""Times submissions and listings of the proved program, and tells the memory that each takes.

  bench/layouts.py [PROGRAM]     PROGRAM is crates/mpw_main/out/mpw_main where none is given

Each row is one script on a new desk. The time is the whole program's, its start included; the memory is its greatest
resident size. Reading alone is the same script without the grant of `submit`: the payload is read, and the request denied.
"""
import os
import struct
import subprocess
import sys
import tempfile
import time

TOP = os.path.dirname(os.path.dirname(os.path.abspath(__file__)))
DIGEST = "ba7816bf8f01cfea414140de5dae2223b00361a396177a9cb410ff61f20015ad"
HEAD = bytes.fromhex("0006000202580" + "01c0102") + bytes(24) + bytes.fromhex("000602064c42")
UNITS = bytes.fromhex("001403053e4189374bc6a7f03944b82fa09b5a54")


def record(kind, form, data=b""):
    return struct.pack(">HBB", len(data) + 4, kind, form) + data


def text(name):
    return name + b"\0" * (len(name) % 2)


def boundary(layer, x0, y0, x1, y1):
    points = struct.pack(">10i", x0, y0, x1, y0, x1, y1, x0, y1, x0, y0)
    return record(0x08, 0) + record(0x0D, 2, struct.pack(">h", layer)) + record(0x0E, 2, b"\0\0") + record(0x10, 3, points) + record(0x11, 0)


def reference(name, x, y):
    return record(0x0A, 0) + record(0x12, 6, text(name)) + record(0x10, 3, struct.pack(">2i", x, y)) + record(0x11, 0)


def array(name, columns, rows, pitch):
    points = struct.pack(">6i", 0, 0, columns * pitch, 0, 0, rows * pitch)
    size = struct.pack(">2h", columns, rows)
    return record(0x0B, 0) + record(0x12, 6, text(name)) + record(0x13, 2, size) + record(0x10, 3, points) + record(0x11, 0)


def structure(name, *items):
    return record(0x05, 2, bytes(24)) + record(0x06, 6, text(name)) + b"".join(items) + record(0x07, 0)


def library(*structures):
    return HEAD + UNITS + b"".join(structures) + record(0x04, 0)


def script(may_submit, payload, times=1, then=()):
    lines = [b"open root abc", b"activate officer"]
    if may_submit:
        lines.append(b"grant submit chip officer")
    lines.append(b"grant read chip officer")
    body = b"".join(line + b"\n" for line in lines)
    body += (b"submit chip TOP %d\n" % len(payload) + payload) * times
    return body + b"".join(line + b"\n" for line in then)


def full():
    return library(structure(b"TOP", *(boundary(1, 20 * i, 0, 20 * i + 10, 100) for i in range(262141))))


def grid():
    return library(structure(b"TOP", array(b"E", 1024, 1024, 10)), structure(b"E", boundary(1, 0, 0, 4, 4)))


def small():
    return library(structure(b"TOP", boundary(1, 0, 0, 10, 100)))


def chain():
    return library(
        structure(b"TOP", reference(b"S0", 0, 0)),
        *(structure(b"S%d" % i, reference(b"S%d" % (i + 1), 0, 0)) for i in range(199998)),
        structure(b"S199998", boundary(1, 0, 0, 1, 1)),
    )


def run(program, make):
    with tempfile.TemporaryFile() as source, tempfile.TemporaryFile() as sink:
        # Made in a process of its own: a child's greatest size begins with its parent's.
        maker = os.fork()
        if maker == 0:
            with os.fdopen(os.dup(source.fileno()), "wb") as file:
                file.write(make())
            os._exit(0)
        os.waitpid(maker, 0)
        source.seek(0)
        began = time.monotonic()
        process = subprocess.Popen([program, "script", "--officer", "root", "--digest", DIGEST], stdin=source, stdout=sink)
        _, status, used = os.wait4(process.pid, 0)
        took = time.monotonic() - began
        size = sink.seek(0, 2)
        sink.seek(max(0, size - 200))
        last = sink.read().decode().rstrip("\n").split("\n")[-1]
        return took, used.ru_maxrss / 1024, size, last if status == 0 else f"status {status}"


def main(words):
    program = words[0] if words else f"{TOP}/crates/mpw_main/out/mpw_main"
    rows = [
        ("reading a library of 2^24 bytes", lambda: script(False, full())),
        ("submitting it", lambda: script(True, full())),
        ("submitting it, and listing its 262,141 shapes", lambda: script(True, full(), 1, [b"shapes chip"])),
        ("submitting 2^20 shapes of an array", lambda: script(True, grid())),
        ("submitting them, and listing them", lambda: script(True, grid(), 1, [b"shapes chip"])),
        ("submitting them, and listing them ten times", lambda: script(True, grid(), 1, [b"shapes chip"] * 10)),
        ("4092 submissions of 168 bytes", lambda: script(True, small(), 4092)),
        ("a chain of 200,000 structures, 14,796,052 bytes", lambda: script(True, chain())),
        ("three times refused for it", lambda: script(True, chain(), 3)),
    ]
    print("| Script | Seconds | MB resident | Bytes of replies | Last line |")
    print("|-|-|-|-|-|")
    for name, make in rows:
        took, memory, size, last = run(program, make)
        print(f"| {name} | {took:.2f} | {memory:.0f} | {size} | `{last[:60]}` |", flush=True)


if __name__ == "__main__":
    main(sys.argv[1:])
