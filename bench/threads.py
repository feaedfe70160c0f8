#!/usr/bin/env python3
"""Times the jobs of whole runs on one thread against all threads, each in a process of its own.

  bench/threads.py [ROUNDS [KIND N SIDE]..]     7 rounds and the four layouts of runs.py where none are given

Needs crates/gate_bench/out/gate_bench (`scripts/build.py gate_bench`). In each round each layout is run twice, on one thread and on as many as there are
processors, by turns which of them first. Milliseconds are medians and, in brackets, the best; after them are the
seconds of processor in the system and the page faults of the whole process, which show what memory costs. Two
columns of ours are how many times as fast all threads are, by medians and by bests.

Then a run on one thread stands on each processor, all at once: what the jobs of each take so. Processors that share a core, as
those of a virtual machine may, slow one another: how many times the work of one alone, at its best, all of them do, is what the
machine gives, and the next column shows how much of it all threads of one run get.

In the same rounds threads.c, which `cc`
builds, computes for as long as our jobs take on one thread, in as many parts as there are tiles, and then the same in threads
that are started and take parts as the jobs' do; the last two columns are its ratios: what the machine gives to work of that
length whose instructions wait for one another, so that sharing a core costs it little. Let nothing else run beside.
"""
import os
import re
import statistics
import subprocess
import sys
import tempfile

import runs

HEADS = ['Layout', 'Tiles', 'Cut', 'Jobs, one thread', 'Jobs, all threads', 'Stitching', 'System, one', 'System, all',
         'Faults, one', 'Faults, all', 'By medians', 'By bests', 'One thread on each processor', 'The machine gives', 'Of it all threads get',
         'Computing in C, by medians', 'By bests']
PROCESSORS = len(os.sched_getaffinity(0))
FIGURES = ['one', 'all', 'each', 'computed one', 'computed all']
# The jobs' threads, if there are as many tiles.
THREADS = PROCESSORS + 2


def begun(path, side, threads):
    words = [runs.PROGRAM, 'job', path, str(side), threads]
    return subprocess.Popen(words, stdin=subprocess.DEVNULL, stdout=subprocess.PIPE, text=True)


def ended(process):
    """The milliseconds of each part, the tiles, and the system's milliseconds and the page faults of the process."""
    output = process.stdout.read()
    _, status, usage = os.wait4(process.pid, 0)
    if status:
        sys.exit(f'{" ".join(process.args)} ended with {status}')
    parts = {what: float(taken) for what, taken in re.findall(r'^(\w+).*: ([\d.]+) ms$', output, re.M)}
    tiles = int(re.search(r'^cut: (\d+) tiles', output, re.M).group(1))
    return {**parts, 'tiles': tiles, 'system': usage.ru_stime * 1000, 'faults': usage.ru_minflt}


def timed(path, side, threads):
    return ended(begun(path, side, threads))


def on_each_processor(path, side):
    """What runs on one thread take, one on each processor, all at once."""
    return [ended(it) for it in [begun(path, side, 'one') for _ in range(PROCESSORS)]]


def computed(program, steps, threads, parts):
    """The milliseconds of that many steps of computing in so many parts, in so many threads."""
    output = subprocess.run([program, str(steps), str(threads), str(parts)], stdout=subprocess.PIPE, text=True, check=True).stdout
    return float(output.split()[0])


def steps_for(program, milliseconds):
    """How many steps take about that long on one thread."""
    trial = 10 ** 7
    return int(trial * milliseconds / min(computed(program, trial, 1, 1) for _ in range(5)))


def measured(program, paths, layouts, rounds):
    """The figures of each round, by layout and by threads, and those of computing for as long."""
    found = {(layout, it): [] for layout in layouts for it in FIGURES}
    first = {it: timed(paths[it], it[2], 'one') for it in layouts}
    steps = {it: steps_for(program, first[it]['jobs']) for it in layouts}
    for turn in range(rounds):
        for layout in layouts:
            for threads in (('one', 'all') if turn % 2 == 0 else ('all', 'one')):
                found[layout, threads].append(timed(paths[layout], layout[2], threads))
                parts = first[layout]['tiles']
                many = min(THREADS, parts) if threads == 'all' else 1
                found[layout, f'computed {threads}'].append({'jobs': computed(program, steps[layout], many, parts)})
            found[layout, 'each'] += on_each_processor(paths[layout], layout[2])
    return found


def row(layout, one, every, each, computed_one, computed_all):
    def both(figures, part):
        values = [it[part] for it in figures]
        return f'{statistics.median(values):.1f} ({min(values):.1f})'

    def middle(figures, part):
        return f'{statistics.median(it[part] for it in figures):.0f}'

    def times(of, one=one, every=every):
        return f'{of(it["jobs"] for it in one) / of(it["jobs"] for it in every):.2f}'

    alone, beside = min(it['jobs'] for it in one), statistics.median(it['jobs'] for it in each)
    given, reached = PROCESSORS * alone / beside, beside / PROCESSORS / statistics.median(it['jobs'] for it in every)
    kind, count, side = layout
    return [f'{kind} {count}, side {side}', str(one[0]['tiles']), both(one + every, 'cut'), both(one, 'jobs'),
            both(every, 'jobs'), both(one + every, 'stitch'), middle(one, 'system'), middle(every, 'system'),
            middle(one, 'faults'), middle(every, 'faults'), times(statistics.median), times(min),
            both(each, 'jobs'), f'{given:.2f}', f'{100 * reached:.0f} %',
            times(statistics.median, computed_one, computed_all), times(min, computed_one, computed_all)]


def main(words):
    rounds = int(words[0]) if words else 7
    asked = [(words[i], int(words[i + 1]), int(words[i + 2])) for i in range(1, len(words), 3)] or runs.RUNS
    with tempfile.TemporaryDirectory() as folder:
        paths = {layout: os.path.join(folder, '-'.join(map(str, layout))) for layout in asked}
        for kind, count, side in asked:
            runs.make(paths[kind, count, side], kind, count)
        program = os.path.join(folder, 'computing')
        source = os.path.join(os.path.dirname(os.path.abspath(__file__)), 'threads.c')
        subprocess.run(['cc', '-O2', '-pthread', '-o', program, source], check=True)
        found = measured(program, paths, asked, rounds)
    print('| ' + ' | '.join(HEADS) + ' |')
    print('|' + '-|' * len(HEADS))
    for layout in asked:
        figures = (found[layout, it] for it in FIGURES)
        print('| ' + ' | '.join(row(layout, *figures)) + ' |')


if __name__ == '__main__':
    main(sys.argv[1:])
