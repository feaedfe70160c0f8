#!/usr/bin/env python3
"""Times `mpw check` on layouts of the size of a chip, by turns with KLayout.

  bench/chips.py [PROGRAM..] [--limit SECONDS] [--modes MODE,..] [KIND N]..     the layouts of the table if none is named

PROGRAM is crates/mpw_firm/out/mpw_firm if none is given. If there are several, they run by turns on one thread, and only their times are
printed. SECONDS, after which a mode of KLayout is stopped, are 600. The modes are flat, tiled and deep. chip_layouts.py has the kinds.

`mpw check` checks each layout with its kind's deck, on one thread and on all; KLayout does so flat, tiled and deep. `mpw check` reads, checks
and lists. Its columns are the seconds of the process, of processors, and of the checks alone by the clock, as it prints them. KLayout's
column is the seconds of its checks, without reading, and the ratio to our checks on all threads. The memory is that of the process on all
threads, next to the estimate that it prints, and that of a check with --summary. KLayout's `width` is shielded, its other checks aren't, as
ours. Counts are those of the deck's rules. KLayout's tiled mode counts a pair across a seam twice.
"""
import multiprocessing
import os
import re
import shutil
import subprocess
import sys
import tempfile
import time

import chip_layouts

HERE = os.path.dirname(os.path.abspath(__file__))
PROGRAM = os.path.join(HERE, '..', 'crates', 'mpw_firm', 'out', 'mpw_firm')
TABLE = [('wires', 300_000), ('wires', 3_000_000), ('array2', 1 << 10), ('array2', 1 << 12), ('array4', 1 << 10), ('array4', 1 << 12), ('orient', 200_000),
         ('routed', 100_000), ('routed', 1_000_000), ('nested2', 1 << 22), ('nested4', 1 << 24), ('crossed2', 1 << 24), ('marked2', 1 << 20), ('marked4', 1 << 22),
         ('chip', 100_000), ('chip', 1_000_000), ('mixed', 200_000)]
MOST_SECONDS = 600
SIDE = 65536
MODES = ('flat', 'tiled', 'deep')
HEADS = ['Layout', 'File, MB', 'Shapes', 'One thread', 'All threads', 'MB of those estimated', 'MB for the numbers alone', 'Markers', 'Flat', 'Tiled, all threads', 'Deep']


def make(path, kind, n, folder):
    """Writes a layout in a process of its own: a child's greatest size begins with its parent's."""
    maker = multiprocessing.Process(target=chip_layouts.write, args=(path, kind, n, folder))
    maker.start()
    maker.join()
    if maker.exitcode:
        sys.exit(f'{kind} {n} could not be written')


def timed(command, limit=MOST_SECONDS):
    """The status, both outputs, the seconds by the clock and of processors, and the megabytes of a command; none after the limit."""
    with tempfile.TemporaryFile('w+') as printed:
        began = time.monotonic()
        process = subprocess.Popen(command, stdin=subprocess.DEVNULL, stdout=printed, stderr=subprocess.STDOUT,
                                   env={**os.environ, 'QT_QPA_PLATFORM': 'offscreen'})
        while True:
            done, status, usage = os.wait4(process.pid, os.WNOHANG)
            if done:
                break
            if time.monotonic() - began > limit:
                process.kill()
                os.wait4(process.pid, 0)
                return None
            time.sleep(0.02)
        taken = time.monotonic() - began
        printed.seek(0)
        return os.waitstatus_to_exitcode(status), printed.read(), taken, usage.ru_utime + usage.ru_stime, usage.ru_maxrss / 1024


class Ours:
    """What one `mpw check` printed of itself, and what it took."""

    def __init__(self, program, path, deck, processors, option=''):
        command = f'taskset -c {processors} {program} check --deck {deck} --top TOP {option} {path} > /dev/null'
        found = timed(['sh', '-c', command])
        if not found or found[0] not in (0, 1):
            sys.exit(f'{command}: {found}')
        _, printed, self.seconds, self.processor_seconds, self.megabytes = found
        summary = re.search(r'(\d+) shapes, .*?\d+ markers?((?:, \w+ \d+)+)', printed)
        self.shapes = int(summary[1])
        self.counts = [int(it) for it in re.findall(r', \w+ (\d+)', summary[2])]
        parts = re.search(r'times: read \d+ ms, \w+ (\d+) ms, check (\d+) ms, \w+ (\d+) ms', printed)
        self.checks = sum(map(int, parts.groups())) / 1000
        self.estimated = int(re.search(r'MB of an estimated (\d+) MB', printed)[1])
        if self.megabytes > self.estimated:
            print(f'{command}: {self.megabytes:.0f} MB, and {self.estimated} estimated', file=sys.stderr)

    def times(self):
        return f'{self.seconds:.2f} s ({self.processor_seconds:.2f}), {self.checks:.2f}'


def theirs(path, deck, mode, threads, limit):
    """The counts, the seconds and the megabytes of one of KLayout's modes, or that it took longer than the limit."""
    words = [f'library={path}', f'deck={deck}', f'mode={mode}', f'side={SIDE}', f'threads={threads}', 'shielded=no', 'listed=yes']
    script = os.path.join(HERE, 'klayout_runs.py')
    found = timed(['klayout', '-b', '-r', script, *(it for word in words for it in ('-rd', word))], limit)
    if not found or found[0]:
        return f'more than {limit} s' if not found else f'ended with {found[0]}'
    counts = re.search(r'^([\d ]+) pairs$', found[1], re.M).group(1)
    seconds = float(re.search(r'^([\d.]+) s$', found[1], re.M).group(1))
    return [int(count) for count in counts.split()], seconds, found[4]


def cell(found, counts, least):
    """A mode's column: its seconds, as such and as a multiple of ours, its megabytes, and its counts if they aren't ours."""
    if isinstance(found, str):
        return found
    return f'{found[1]:.2f} s ({found[1] / max(least, 0.001):.1f}), {found[2]:.0f} MB' + ('' if found[0] == counts else f', {" ".join(map(str, found[0]))}')


def row(program, name, path, deck, limit, modes):
    """A row of the table."""
    processors = len(os.sched_getaffinity(0))
    one = Ours(program, path, deck, '0')
    many = Ours(program, path, deck, f'0-{processors - 1}')
    alone = Ours(program, path, deck, f'0-{processors - 1}', '--summary')
    if not one.counts == many.counts == alone.counts:
        sys.exit(f'{name}: {one.counts} on one thread, {many.counts} on all, {alone.counts} with --summary')
    cells = [name, f'{os.path.getsize(path) / 1e6:.0f}', many.shapes, one.times(), many.times(), f'{many.megabytes:.0f} of {many.estimated}',
             f'{alone.megabytes:.0f}', ' '.join(map(str, many.counts))]
    if shutil.which('klayout'):
        cells += [cell(theirs(path, deck, mode, 1 if mode == 'flat' else processors, limit), many.counts, many.checks) if mode in modes else '-' for mode in MODES]
    return cells


def turns(programs, name, path, deck):
    """A row with the times of several programs on one thread, three times by turns."""
    found = [[Ours(program, path, deck, '0') for program in programs] for _ in range(3)]
    if any(it.counts != found[0][0].counts for some in found for it in some):
        sys.exit(f'{name}: the counts differ')
    return [name, *('; '.join(it.times() for it in each) for each in zip(*found))]


def main(words):
    programs, limit, modes = [], MOST_SECONDS, MODES
    while words and os.path.isfile(words[0]):
        programs.append(words.pop(0))
    while words and words[0].startswith('--'):
        limit = int(words[1]) if words[0] == '--limit' else limit
        modes = words[1].split(',') if words[0] == '--modes' else modes
        words = words[2:]
    table = [(words[k], int(words[k + 1])) for k in range(0, len(words), 2)] or TABLE
    heads = ['Layout', *programs] if len(programs) > 1 else HEADS
    print('| ' + ' | '.join(heads) + ' |')
    print('|' + '-|' * len(heads))
    with tempfile.TemporaryDirectory() as folder:
        path, deck = os.path.join(folder, 'layout.gds'), os.path.join(folder, 'deck')
        for kind, n in table:
            make(path, kind, n, folder)
            with open(deck, 'w', encoding='ascii') as file:
                file.write(chip_layouts.deck_of(kind))
            name = f'{kind} {n}'
            cells = turns(programs, name, path, deck) if len(programs) > 1 else row((programs or [PROGRAM])[0], name, path, deck, limit, modes)
            print('| ' + ' | '.join(str(it) for it in cells) + ' |', flush=True)


if __name__ == '__main__':
    main(sys.argv[1:])
