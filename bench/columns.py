#!/usr/bin/env python3
"""Times whole checks by columns, beside those by tiles.

  bench/columns.py [PROGRAM] [KIND N SIDE]..     KIND is wires or array; the four layouts of runs.py where none is given

Without PROGRAM it is crates/gate_bench/out/gate_bench (`scripts/build.py gate_bench`). Each row is one layout: the
program's own milliseconds of the check, without reading, and the processor seconds and the greatest size of the whole process, its
reading included; by columns that show at most 65536 shapes each, and by tiles of that side. The markers of both are compared by their
numbers, rule by rule.
"""
import os
import re
import subprocess
import sys
import tempfile

import runs

HERE = os.path.dirname(os.path.abspath(__file__))
PROGRAM = os.path.join(HERE, '..', 'crates', 'gate_bench', 'out', 'gate_bench')
MOST = 65536
HEADS = ['Layout', 'Tiles of', 'Columns, ms', 'CPU s', 'MB', 'Tiles, ms', 'CPU s', 'MB', 'Markers']


def measured(command):
    """The output, the processor seconds and the megabytes of a command."""
    process = subprocess.Popen(command, stdin=subprocess.DEVNULL, stdout=subprocess.PIPE, text=True)
    out = process.stdout.read()
    _, status, usage = os.wait4(process.pid, 0)
    if status:
        sys.exit(f'{command} ended with {status}')
    return out, usage.ru_utime + usage.ru_stime, usage.ru_maxrss / 1024


def told(out):
    """The milliseconds and the rest of what the program tells."""
    found = re.match(r'(\d+) markers: (\d+) ms\n(.*)', out, re.S)
    return int(found[2]), found[1] + '\n' + found[3]


def row(program, folder, kind, n, side):
    path = os.path.join(folder, f'{kind}{n}.gds')
    runs.make(path, kind, n)
    columns, columns_cpu, columns_mb = measured([program, 'columns', path, str(MOST)])
    tiles, tiles_cpu, tiles_mb = measured([program, 'columns', path, 'tiles', str(side)])
    (ms, markers), (tiles_ms, others) = told(columns), told(tiles)
    if markers != others:
        sys.exit(f'{kind} {n}: {markers} by columns, {others} by tiles')
    return [f'{kind} {n}', side, ms, f'{columns_cpu:.2f}', f'{columns_mb:.0f}', tiles_ms, f'{tiles_cpu:.2f}',
            f'{tiles_mb:.0f}', markers.split('\n')[0]]


def main(words):
    program = words.pop(0) if words and os.path.isfile(words[0]) else PROGRAM
    layouts = [(words[k], int(words[k + 1]), int(words[k + 2])) for k in range(0, len(words), 3)] or runs.RUNS
    print('| ' + ' | '.join(HEADS) + ' |')
    print('|' + '-|' * len(HEADS))
    with tempfile.TemporaryDirectory() as folder:
        for kind, n, side in layouts:
            print('| ' + ' | '.join(str(cell) for cell in row(program, folder, kind, n, side)) + ' |', flush=True)


main(sys.argv[1:])
