"""Copies the store of a desk, also while the desk serves it.

The store is a SQLite database and its log, FILE-wal. The desk adds changes to the end of the log. Now and then it copies the log into
FILE, and begins the log again with another head. So a copy of FILE and then of the log is what the store was at one moment, if neither FILE
nor the head of the log changed meanwhile. If one did, the copy is made again. No lock is taken, so the desk never waits.

https://www.sqlite.org/fileformat2.html#the_write_ahead_log describes the log.
"""
import array
import os
import shutil
import stat
import struct
import sys
import time
from typing import NamedTuple

BLOCK = 1 << 20
HEAD, FRAME_HEAD = 32, 24
# The first number of a log; the lowest bit says that its sums take the bytes of a word from the highest to the lowest.
MAGIC = 0x377F0682
# A file that didn't change for so many seconds gets another time at its next change.
TICK = 0.1
MASK = 0xFFFFFFFF


class Unsteady(Exception):
    """The store changed each time while it was copied."""


class Unready(Exception):
    """The file has nothing to copy."""


class Moment(NamedTuple):
    """What stays the same as long as the desk only adds to the log: which file it is, its size and time, and the head of the log."""

    device: int
    inode: int
    size: int
    changed: int
    head: bytes


# The log.


def sums_after(data, is_big, first, second):
    """The two sums of a log after these bytes, whose number is a multiple of 8."""
    words = array.array("I")
    words.frombytes(data)
    if is_big != (sys.byteorder == "big"):
        words.byteswap()
    for at in range(0, len(words), 2):
        first = (first + words[at] + second) & MASK
        second = (second + words[at + 1] + first) & MASK
    return first, second


def committed(log):
    """How many bytes of a log, a binary file at its begin, are its head and whole changes; 0 if it has no change."""
    head = log.read(HEAD)
    if len(head) < HEAD:
        return 0
    magic, _, page, _, *salts, first, second = struct.unpack(">8I", head)
    is_big = bool(magic & 1)
    if magic & ~1 != MAGIC or not 512 <= page <= 65536 or page & (page - 1) or sums_after(head[:24], is_big, 0, 0) != (first, second):
        return 0
    place, last = HEAD, 0
    while True:
        frame = log.read(FRAME_HEAD + page)
        if len(frame) < FRAME_HEAD + page:
            return last
        _, pages, *found, one, other = struct.unpack(">6I", frame[:FRAME_HEAD])
        first, second = sums_after(frame[:8] + frame[FRAME_HEAD:], is_big, first, second)
        if found != salts or (first, second) != (one, other):
            return last
        place += len(frame)
        if pages:  # the last frame of a change has the number of pages of the database
            last = place


# The copy.


def head_of(path):
    """The head of a log, or nothing if there is no log."""
    try:
        with open(path, "rb") as log:
            return log.read(HEAD)
    except FileNotFoundError:
        return b""


def moment_of(store):
    """What the store is now. Its log is looked at before the file."""
    head = head_of(store + "-wal")
    found = os.stat(store)
    return Moment(found.st_dev, found.st_ino, found.st_size, found.st_mtime_ns, head)


def is_settled(store):
    """Waits a moment until the file's next change gets another time than its last. Whether it does."""
    for _ in range(8):
        if not 0 <= time.time() - os.stat(store).st_mtime < TICK:
            return True
        time.sleep(TICK / 4)
    return False


def write(path, like, source, size, end=b""):
    """Copies so many bytes to a new file, and more bytes after them. The file reaches the disk. Only its owner may read and write it; root
    makes it that of the store's owner."""
    with open(os.open(path, os.O_WRONLY | os.O_CREAT | os.O_EXCL, 0o600), "wb") as out:
        while size > 0:
            data = source.read(min(size, BLOCK))
            if not data:
                break
            out.write(data)
            size -= len(data)
        out.write(end)
        if os.geteuid() == 0:
            os.fchown(out.fileno(), like.st_uid, like.st_gid)
        out.flush()
        os.fsync(out.fileno())


def copy_log(log, like, out):
    """Copies the whole changes of a log, if it has any. The desk's database ends them with an empty head of a frame, and finds by it that
    nothing was cut off."""
    try:
        with open(log, "rb") as source:
            size = committed(source)
            if size:
                source.seek(0)
                write(out, like, source, size, bytes(FRAME_HEAD))
    except FileNotFoundError:
        return


def copied_at_once(store, folder):
    """Makes a folder, and copies the store into it. Whether the copy is what the store was at one moment."""
    os.mkdir(folder, 0o700)
    if not is_settled(store):
        return False
    before = moment_of(store)
    out = os.path.join(folder, os.path.basename(store))
    with open(store, "rb") as source:
        like = os.fstat(source.fileno())
        if not stat.S_ISREG(like.st_mode):
            raise Unready("it is no regular file: name the file of mpw serve --store")
        if like.st_size == 0:
            raise Unready("it is empty, so it has no store: name the file of mpw serve --store")
        if os.geteuid() == 0:
            os.chown(folder, like.st_uid, like.st_gid)
        write(out, like, source, like.st_size)
    copy_log(store + "-wal", like, out + "-wal")
    return moment_of(store) == before


def copy(store, folder, seconds):
    """Copies the store into a new folder as it was at one moment; tries again for so many seconds. Cost: one reading of both files each time."""
    end = time.monotonic() + seconds
    while not copied_at_once(store, folder):
        shutil.rmtree(folder)
        if time.monotonic() > end:
            raise Unsteady(f"it changed each time while it was copied, for {seconds} seconds: try again when fewer requests come")
