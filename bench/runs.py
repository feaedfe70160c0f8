#!/usr/bin/env python3
"""Times whole runs: the cut, the jobs of all tiles on one thread and on all, and the stitching.

  bench/runs.py [ROUNDS] [KIND N SIDE]..     at least one round; KIND is wires or array; the four layouts where none is given

Needs crates/gate_bench/out/gate_bench (`scripts/build.py gate_bench`). In each round a layout is run twice, with its jobs on one thread
and on all, each in a process of its own, and the rounds go on until ours took 20 seconds, since short runs swing. If klayout is installed, its flat, tiled and deep modes come after them in the same round,
each on one thread, until they have taken two minutes: times and memory of shielded checks, which are KLayout's faster ones. Its counts on up
to 20,000 wires are those of unshielded ones, which are those of our rules. All times are those in the middle of the rounds, and ratios are those of
such times, with that of the least times in brackets for threads. They are of wall time without reading, on a machine that should be idle; megabytes are the most that a process held, in the first round.
Counts are width, space, separation, enclosing.
"""
import multiprocessing
import os
import random
import re
import shutil
import statistics
import subprocess
import sys
import tempfile
import time

import layouts

HERE = os.path.dirname(os.path.abspath(__file__))
PROGRAM = os.path.join(HERE, '..', 'crates', 'gate_bench', 'out', 'gate_bench')
RUNS = [('wires', 20000, 4096), ('wires', 200000, 8192), ('array', 64, 2048), ('array', 512, 8192)]
MODES = ['flat', 'tiled', 'deep']
HEADS = ['Layout', 'Tiles', 'Rounds', 'Cut', 'Jobs, one thread', 'Jobs, all threads', 'Times one (by the least)', 'Stitching', 'Run on one thread', 'Memory',
         'Markers']
# What ours has to have taken of a layout before no further round has it.
LEAST_SECONDS = 20
# What KLayout's modes may have taken of a layout before no further round has them.
MOST_SECONDS = 120
# On 200,000 wires unshielded checks take KLayout over 10 minutes.
MOST_WIRES_UNSHIELDED = 20000


def wires(n):
    """The same wires as layout.py's."""
    random.seed(1)
    side = int(250 * n**0.5)
    shapes = []
    for _ in range(n):
        x, y = random.randrange(side), random.randrange(side)
        length, width = random.randrange(200, 2000), random.randrange(50, 70)
        w, h = (length, width) if random.random() < 0.5 else (width, length)
        shapes.append(layouts.boundary(1, x, y, x + w, y + h))
    for _ in range(n // 2):
        x, y = random.randrange(side), random.randrange(side)
        shapes.append(layouts.boundary(2, x, y, x + 40, y + 40))
    return layouts.library(layouts.structure(b'TOP', *shapes))


def array(n):
    """The cells of layout.py's, by one reference to their structure."""
    cell = [(1, 0, 0, 100, 250), (1, 0, 100, 250, 150), (1, 200, 0, 250, 90), (2, 20, 20, 60, 60)]
    return layouts.library(layouts.structure(b'TOP', layouts.array(b'E', n, n, 300)),
                           layouts.structure(b'E', *(layouts.boundary(*shape) for shape in cell)))


def write(path, kind, n):
    with open(path, 'wb') as out:
        out.write({'wires': wires, 'array': array}[kind](n))


def make(path, kind, n):
    """Writes a layout in a process of its own: a child's greatest size begins with its parent's."""
    maker = multiprocessing.Process(target=write, args=(path, kind, n))
    maker.start()
    maker.join()
    if maker.exitcode:
        sys.exit(f'{kind} {n} could not be written')


def run(command):
    """The output and the megabytes of a command."""
    process = subprocess.Popen(command, stdin=subprocess.DEVNULL, stdout=subprocess.PIPE, text=True,
                               env={**os.environ, 'QT_QPA_PLATFORM': 'offscreen'})
    output = process.stdout.read()
    _, status, usage = os.wait4(process.pid, 0)
    if status:
        sys.exit(f'{command[0]} ended with {status}')
    return output, usage.ru_maxrss / 1024


def ours(path, side, threads):
    """The tiles, the counts of the rules, the milliseconds of each part, and the megabytes."""
    output, megabytes = run([PROGRAM, 'job', path, str(side), threads])
    parts = {what: float(taken) for what, taken in re.findall(r'^(\w+).*: ([\d.]+) ms$', output, re.M)}
    tiles = int(re.search(r'^cut: (\d+) tiles', output, re.M).group(1))
    counts = [int(count) for count in re.findall(r'^  \w+: (\d+)$', output, re.M)]
    return tiles, counts, parts, megabytes


def theirs(path, mode, side, shielded):
    """The counts of the rules, the seconds and the megabytes."""
    script = os.path.join(HERE, 'klayout_runs.py')
    words = [f'library={path}', f'mode={mode}', f'side={side}', 'threads=1', f'shielded={"yes" if shielded else "no"}']
    output, megabytes = run(['klayout', '-b', '-r', script, *(it for word in words for it in ('-rd', word))])
    counts = re.search(r'^([\d ]+) pairs$', output, re.M).group(1)
    return [int(count) for count in counts.split()], float(re.search(r'^([\d.]+) s$', output, re.M).group(1)), megabytes


def unshielded(kind, n, side, path, counts):
    """KLayout's counts: those of unshielded checks where these don't take long, else the ones given."""
    if kind == 'wires' and n <= MOST_WIRES_UNSHIELDED:
        return f'{" ".join(map(str, theirs(path, "flat", side, False)[0]))}, unshielded'
    return f'{" ".join(map(str, counts))}, shielded'


def measured(path, side, rounds):
    """What each round found: of ours on one thread and on all, and of each of KLayout's modes."""
    found = {it: [] for it in ['one', 'all', *MODES]}
    left, taken = MOST_SECONDS if shutil.which('klayout') else 0, 0
    while len(found['one']) < rounds or taken < LEAST_SECONDS:
        began = time.monotonic()
        for threads in ('one', 'all'):
            found[threads].append(ours(path, side, threads))
        taken += time.monotonic() - began
        if left > 0:
            began = time.monotonic()
            for mode in MODES:
                found[mode].append(theirs(path, mode, side, True))
            left -= time.monotonic() - began
    return found


def compared(found, one, megabytes):
    """KLayout's columns: each mode's seconds and megabytes as such and as multiples of ours."""
    cells = []
    for mode in MODES:
        seconds, held = statistics.median(it[1] for it in found[mode]), found[mode][0][2]
        cells.append(f'{seconds:.3f} s ({1000 * seconds / one:.1f}), {held:.0f} MB ({held / megabytes:.1f})')
    return cells


def row(kind, n, side, folder, rounds):
    path = os.path.join(folder, 'layout.gds')
    make(path, kind, n)
    found = measured(path, side, rounds)
    tiles, counts, _, megabytes = found['one'][0]
    cut, one, stitch = (statistics.median(it[2][part] for it in found['one']) for part in ('cut', 'jobs', 'stitch'))
    every = statistics.median(it[2]['jobs'] for it in found['all'])
    least, least_of_all = (min(it[2]['jobs'] for it in found[threads]) for threads in ('one', 'all'))
    whole = statistics.median(it[2]['cut'] + it[2]['jobs'] + it[2]['stitch'] for it in found['one'])
    cells = [f'{kind} {n}, side {side}', str(tiles), f'{len(found["one"])} and {len(found["flat"])}', f'{cut:.1f} ms', f'{one:.1f} ms', f'{every:.1f} ms',
             f'{one / every:.2f} ({least / least_of_all:.2f})', f'{stitch:.1f} ms', f'{whole:.1f} ms', f'{megabytes:.0f} MB', ' '.join(map(str, counts))]
    if found['flat']:
        cells += [*compared(found, whole, megabytes), unshielded(kind, n, side, path, found['flat'][0][0])]
    print('| ' + ' | '.join(cells) + ' |', flush=True)


def main(words):
    rounds = int(words.pop(0)) if len(words) % 3 == 1 else 1
    asked = [(words[i], int(words[i + 1]), int(words[i + 2])) for i in range(0, len(words), 3)] or RUNS
    heads = [*HEADS]
    if shutil.which('klayout'):
        heads += [f'KLayout {mode}: time and memory (times ours)' for mode in MODES] + ['KLayout pairs, flat']
    print('| ' + ' | '.join(heads) + ' |')
    print('|' + '-|' * len(heads))
    with tempfile.TemporaryDirectory() as temporary:
        for kind, count, side in asked:
            row(kind, count, side, temporary, rounds)


if __name__ == '__main__':
    main(sys.argv[1:])
