"""How far a run is, on a terminal."""
import sys

from mpw_desk import State


class Progress:
    """One line on the standard error, if that is a terminal."""

    def __init__(self):
        self.width = 0

    def show(self, status):
        if not sys.stderr.isatty():
            return
        if status.state is State.CHECKING:
            text = f"run {status.run}: {status.done} of {status.total} tiles checked"
        else:
            text = f"run {status.run}: {status.state.value}" if status.run else status.state.value
        print(f"\r{text.ljust(self.width)}", end="", file=sys.stderr, flush=True)
        self.width = len(text)

    def clear(self):
        if self.width:
            print(f"\r{' ' * self.width}\r", end="", file=sys.stderr, flush=True)
