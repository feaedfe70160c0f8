#!/usr/bin/env python3
"""Times the checks next to KLayout's: compare.py [KIND N]..

Needs crates/gate_bench/out/gate_bench (`scripts/build.py gate_bench`), and klayout on the path for its columns.
Seconds are processor seconds without reading; megabytes are the most that a process held.
"""
import os
import re
import shutil
import subprocess
import sys
import tempfile

HERE = os.path.dirname(os.path.abspath(__file__))
PROGRAM = os.path.join(HERE, '..', 'crates', 'gate_bench', 'out', 'gate_bench')
LAYOUTS = [('wires', 20000), ('wires', 200000), ('array', 64), ('array', 512)]


def run(command, stdin):
    """The output, processor seconds and megabytes of a command."""
    with open(stdin) as lines:
        process = subprocess.Popen(command, stdin=lines, stdout=subprocess.PIPE, text=True,
                                   env={**os.environ, 'QT_QPA_PLATFORM': 'offscreen'})
        output = process.stdout.read()
        _, status, usage = os.wait4(process.pid, 0)
    if status:
        sys.exit(f'{command[0]} ended with {status}')
    return output, usage.ru_utime + usage.ru_stime, usage.ru_maxrss / 1024


def counts(output):
    return [int(n) for n in re.findall(r'(\d+) p(?:ieces|airs)', output)]


def ours(path, shapes):
    _, reading, _ = run([PROGRAM, 'checks'], shapes)
    output, seconds, megabytes = run([PROGRAM, 'checks'], path)
    return seconds - reading, megabytes, counts(output)


def theirs(path):
    script = os.path.join(HERE, 'klayout_checks.py')
    output, _, megabytes = run(['klayout', '-b', '-r', script, '-rd', f'lines={path}'], os.devnull)
    return sum(int(ms) for ms in re.findall(r'(\d+) ms', output)) / 1000, megabytes, counts(output)


def row(kind, n, folder):
    path, shapes = os.path.join(folder, 'layout'), os.path.join(folder, 'shapes')
    with open(path, 'w') as out:
        subprocess.run([sys.executable, os.path.join(HERE, 'layout.py'), kind, str(n)], stdout=out, check=True)
    with open(path) as lines, open(shapes, 'w') as out:
        out.writelines(line for line in lines if line[0] in 'ab')
    seconds, megabytes, found = ours(path, shapes)
    cells = [f'{kind} {n}', str(sum(1 for _ in open(shapes))), ' '.join(map(str, found)), f'{seconds:.2f} s', f'{megabytes:.0f} MB']
    if shutil.which('klayout'):
        their_seconds, their_megabytes, their_found = theirs(path)
        cells += [' '.join(map(str, their_found)), f'{their_seconds:.2f} s', f'{their_megabytes:.0f} MB',
                  f'{their_seconds / max(seconds, 0.01):.0f}', f'{their_megabytes / megabytes:.1f}']
    print('| ' + ' | '.join(cells) + ' |', flush=True)


words = sys.argv[1:]
asked = [(words[i], int(words[i + 1])) for i in range(0, len(words), 2)] or LAYOUTS
print('| Layout | Rectangles | Found | Time | Memory | KLayout found | KLayout time | KLayout memory | times faster | times less memory |')
print('|-|-|-|-|-|-|-|-|-|-|')
with tempfile.TemporaryDirectory() as temporary:
    for kind, count in asked:
        row(kind, count, temporary)
