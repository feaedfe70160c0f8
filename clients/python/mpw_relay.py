"""A program's outputs, copied as they come: the names of files on the standard error, and what the standard output has, line by line."""
import os
import re
import subprocess
import sys
import threading
import tty
from contextlib import suppress

ERRORS = b"error: ", b"fault: "


class Names:
    """The files that a program gets instead of those that were given, with the names of these and the numbers of their lines."""

    def __init__(self):
        self.known = {}

    def add(self, path, name, line_of=None):
        """A program that names a path means this file. Its line N is line_of(N) of the file."""
        self.known[os.fsencode(path)] = os.fsencode(name), line_of

    def __bool__(self):
        return bool(self.known)

    def put_back(self, line):
        """A line of the standard error with the names and lines of the given files."""
        found = re.match(rb"((?:mpw-page|error|fault): )([^\n]+?)(?:: line ([0-9]+))?: ", line)
        name, line_of = self.known.get(found[2], (None, None)) if found else (None, None)
        if name is None:
            return line
        number = int(found[3]) if found[3] else None
        number = line_of(number) or number if number and line_of else number
        return found[1] + name + (b": line %d" % number if number else b"") + b": " + line[found.end():]


def copy_errors(source, names, hear=None):
    """Copies a standard error. A line that may name a file is held until it is whole, and all else goes on at once. `hear` gets each line."""
    out, held = sys.stderr.buffer, b""
    with suppress(OSError):  # by which the end of a terminal shows
        while True:
            data = os.read(source, 1 << 16)
            held += data
            *lines, held = re.split(rb"(?<=[\r\n])", held)
            lines = [names.put_back(line) for line in lines]
            out.write(b"".join(lines))
            if hear:
                for line in lines:
                    hear(line)
            if not data or not any(it.startswith(held[:7]) for it in (*ERRORS, b"mpw-page: ")):
                out.write(names.put_back(held))
                held = b""
            out.flush()
            if not data:
                return


def error_ends():
    """Both ends for a standard error, the program's last: a terminal if ours is one, so that the program shows its progress."""
    if sys.stderr.isatty():
        with suppress(OSError):  # of a system without terminals of programs
            ours, its = os.openpty()
            tty.setraw(its)
            return ours, its
    return os.pipe()


def relayed(words, names, given=None, see=None, hear=None):
    """Runs a program; its exit status, by a signal 128 and its number. `see` gets each line of its standard output, and `hear` each of its
    standard error."""
    ends = error_ends() if names or hear else None
    how = {"stdin": given, "stdout": subprocess.PIPE if see else None, "stderr": ends[1] if ends else None}
    copying = None
    with subprocess.Popen(words, **how) as process:
        try:
            if ends:
                os.close(ends[1])
                copying = threading.Thread(target=copy_errors, args=(ends[0], names, hear))
                copying.start()
            for line in process.stdout or ():
                sys.stdout.buffer.write(line)
                see(line)
            sys.stdout.flush()
            process.wait()
        except BaseException:
            process.terminate()
            raise
        finally:
            if copying:
                process.wait()
                copying.join()
                os.close(ends[0])
    return process.returncode if process.returncode >= 0 else 128 - process.returncode
