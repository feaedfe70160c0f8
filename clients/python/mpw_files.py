"""Files that are read, and files that are written whole or not at all."""
import os
import re
import signal
import stat
from contextlib import contextmanager


class FileFault(Exception):
    """A file can't be read or written."""


def end_cleanly():
    """Has the signals TERM and HUP end the program as an exception does, so that no file is left half written. What ignores them, as
    under nohup, goes on to ignore them."""

    def end(number, _):
        raise SystemExit(128 + number)

    for name in "SIGTERM", "SIGHUP":
        number = getattr(signal, name, None)
        if number is not None and signal.getsignal(number) is signal.SIG_DFL:
            signal.signal(number, end)


def read_file(path, read):
    """What a function reads of a file."""
    try:
        return read(path)
    except UnicodeDecodeError as error:
        raise FileFault(f"{path}: byte {error.start} is {error.object[error.start]:02X} hex: the file has to be ASCII") from None
    except (OSError, ValueError) as error:
        raise FileFault(f"{path}: {getattr(error, 'strerror', None) or error}") from None


def text_of(path):
    with open(path, encoding="ascii") as file:
        return file.read()


def mode_of(path, most=0o666):
    """The permissions of a file that is to be written anew: those of the old one, or at most these if it is new."""
    try:
        found = os.stat(path).st_mode
    except FileNotFoundError:
        mask = os.umask(0)
        os.umask(mask)
        return most & ~mask
    if not stat.S_ISREG(found):
        raise OSError(0, "it is no regular file")
    return stat.S_IMODE(found)


def is_alive(number):
    """Whether there is a process of this number, of any user."""
    try:
        os.kill(number, 0)
    except ProcessLookupError:
        return False
    except (OSError, OverflowError):
        pass
    return True


def remove_leftovers(path):
    """Removes the half files next to a path that killed programs left."""
    folder, name = os.path.split(path)
    for other in os.listdir(folder):
        found = re.fullmatch(re.escape(name) + r"\.([0-9]{1,10})\.new", other)
        if found and int(found[1]) and (int(found[1]) == os.getpid() or not is_alive(int(found[1]))):
            os.unlink(os.path.join(folder, other))


@contextmanager
def whole_file(path, most=0o666):
    """A new binary file next to the path, with this process's number in its name. If the block ends without a fault, the file takes
    its place: the path has the old file or the new one, each whole. A file that wasn't there gets at most these permissions."""
    beside = None
    try:
        if os.path.islink(path) and not os.path.exists(path):
            raise OSError(0, "it is a link to a file that isn't there")
        path = os.path.realpath(path)
        mode = mode_of(path, most)
        remove_leftovers(path)
        with open(f"{path}.{os.getpid()}.new", "xb", opener=lambda name, flags: os.open(name, flags, 0o600)) as file:
            beside = file.name
            yield file
            file.flush()
            os.fsync(file.fileno())
        os.chmod(beside, mode)
        os.replace(beside, path)
    except OSError as error:
        raise FileFault(f"{path}: {error.strerror or error}") from None
    finally:
        if beside is not None and os.path.exists(beside):
            os.unlink(beside)


def write_whole(path, text):
    """Writes a text as a whole file."""
    with whole_file(path) as file:
        file.write(text.encode("ascii"))


def is_one_file(path, other):
    """Whether two paths lead to one file, which may not be there yet."""
    if os.path.exists(path) and os.path.exists(other):
        return os.path.samefile(path, other)
    return os.path.realpath(path) == os.path.realpath(other)
