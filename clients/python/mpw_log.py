"""A summary of the log of a service (`mpw serve --log FILE`): requests by verb, denials by user and peer, the slowest requests, and how many
calls the desk has left. It reads a log of any length, line by line."""
import gzip
import heapq
import json
import re
import sys
from collections import Counter
from contextlib import contextmanager

MOST_CALLS = 1 << 20
# How many denials and slow requests are listed.
LISTED = 20
NO_VERB = "(no request)"


@contextmanager
def opened(path):
    """The log at the path, as text. - is the standard input, and a name that ends in .gz is that of a compressed log."""
    if path == "-":
        yield (line.decode("utf-8", "replace") for line in sys.stdin.buffer)
        return
    with gzip.open(path, "rt", encoding="utf-8", errors="replace") if path.endswith(".gz") else open(
            path, encoding="utf-8", errors="replace") as file:
        yield file


def shown(value):
    """A value of the log as it is printed: with visible characters alone, and - for null."""
    return "-" if value is None else re.sub(r"[^ -~]", "?", str(value))[:200] or "-"


def host_of(peer):
    """The peer's address without its port."""
    return "-" if peer is None else shown(peer).rpartition(":")[0] or shown(peer)


class Verb:
    """What was asked with a verb."""

    def __init__(self):
        self.count = self.denied = self.refused = 0
        self.milliseconds = self.longest = 0.0

    def add(self, reply, milliseconds):
        self.count += 1
        self.denied += reply.startswith("DENIED")
        self.refused += reply.startswith("REFUSED")
        self.milliseconds += milliseconds
        self.longest = max(self.longest, milliseconds)


class LogSummary:
    """Counts the lines of a log."""

    def __init__(self):
        self.verbs, self.denials, self.others = {}, Counter(), Counter()
        self.slowest, self.times = [], []
        self.connections = self.bad = self.requests = self.dropped = 0
        self.calls, self.since, self.at = None, 0, None

    def add_line(self, text):
        """Counts a line. One that isn't a line of a log is counted as such."""
        try:
            line = json.loads(text)
            event, time = line["event"], shown(line.get("time"))
            if event == "request":
                self.add_request(line, time)
            elif event in ("begin", "end"):
                self.connections += event == "begin"
                self.calls, self.since, self.at = int(line["calls"]), 0, time
            elif event == "dropped":
                self.dropped += int(line["dropped"])
            else:
                self.others[shown(event)] += 1
        except (ValueError, KeyError, TypeError, AttributeError):
            self.bad += 1
            return
        self.times = [*self.times[:1], time]

    def add_request(self, line, time):
        user, verb, reply, milliseconds = line["user"], line["verb"], shown(line["reply"]), float(line["milliseconds"])
        verb = NO_VERB if verb is None else shown(verb)
        self.verbs.setdefault(verb, Verb()).add(reply, milliseconds)
        if reply.startswith("DENIED"):
            self.denials[shown(user), host_of(line["peer"]), f"{verb}: {reply}"] += 1
        self.requests += 1
        self.since += 1
        # The number orders requests of the same time.
        heapq.heappush(self.slowest, (milliseconds, -self.requests, time, shown(user), verb, reply))
        if len(self.slowest) > LISTED:
            heapq.heappop(self.slowest)

    def verb_rows(self):
        for name, it in sorted(self.verbs.items(), key=lambda item: (-item[1].count, item[0])):
            yield name, it.count, it.denied, it.refused, f"{it.milliseconds / it.count:.1f}", f"{it.longest:.1f}"

    def denial_rows(self):
        listed = sorted(self.denials.items(), key=lambda item: (-item[1], item[0]))
        for (user, host, what), count in listed[:LISTED]:
            yield count, user, host, what
        if len(listed) > LISTED:
            yield sum(count for _, count in listed[LISTED:]), "others", "", ""

    def slow_rows(self):
        for milliseconds, _, time, user, verb, reply in sorted(self.slowest, reverse=True):
            yield f"{milliseconds:.1f}", time, user, verb, reply

    def calls_line(self):
        if self.calls is None:
            return "calls left: unknown, since no connection begins or ends in this log"
        left = max(0, MOST_CALLS - self.calls - self.since)
        return f"calls left: at most {left} of {MOST_CALLS}; {self.calls} were answered at {self.at}, requests after that: {self.since}"

    def lines(self):
        """The summary's lines."""
        yield f"{self.requests} requests, {self.connections} connections" + (f", {self.times[0]} to {self.times[-1]}" if self.times else "")
        yield from section(("verb", "requests", "denied", "refused", "mean ms", "longest ms"), self.verb_rows())
        yield from section(("denials", "user", "peer", "request and reply"), self.denial_rows())
        yield from section(("slowest ms", "time", "user", "verb", "reply"), self.slow_rows())
        yield ""
        yield self.calls_line()
        if self.dropped:
            yield f"{self.dropped} lines were dropped, since the log took none for a while: the numbers above lack them"
        for event, count in sorted(self.others.items()):
            yield f"other lines: {count} {event}"
        if self.bad:
            yield f"{self.bad} lines aren't lines of a log"


def section(head, rows):
    """The lines of a table with an empty line before it, or none if it has no row. Numbers are at the right of their columns."""
    rows = [[str(cell) for cell in row] for row in rows]
    if not rows:
        return
    widths = [max(len(row[place]) for row in [list(head), *rows]) for place in range(len(head))]
    is_number = [all(re.fullmatch(r"[0-9.]*", row[place]) for row in rows) for place in range(len(head))]
    yield ""
    for row in [head, *rows]:
        cells = [cell.rjust(width) if number else cell.ljust(width) for cell, width, number in zip(row, widths, is_number)]
        yield "  ".join(cells).rstrip()


def summary_lines(path):
    """The lines of the summary of the log at a path."""
    summary = LogSummary()
    with opened(path) as lines:
        for line in lines:
            summary.add_line(line)
    return list(summary.lines())
