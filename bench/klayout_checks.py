"""The four checks by KLayout: klayout -b -r klayout_checks.py -rd lines=FILE, where FILE is what layout.py wrote."""
import time

import pya

layers = {'a': pya.Region(), 'b': pya.Region()}
checks = []
for line in open(lines):  # noqa: F821, given by -rd
    words = line.split()
    if words[0] in layers:
        layers[words[0]].insert(pya.Box(*map(int, words[1:])))
    else:
        checks.append((words[0], int(words[1])))

start = time.process_time()
first, second = layers['a'].merged(), layers['b'].merged()
print(f'merge: {first.count() + second.count()} polygons, {round(1000 * (time.process_time() - start))} ms', flush=True)
for name, distance in checks:
    start = time.process_time()
    options = (False, pya.Region.Projection, 90, 0, 2**30)
    found = {
        'width': lambda: first.width_check(distance, *options),
        'space': lambda: first.space_check(distance, *options),
        'separation': lambda: first.separation_check(second, distance, *options),
        'enclosing': lambda: first.enclosing_check(second, distance, *options),
    }[name]()
    print(f'{name} {distance}: {found.count()} pairs, {round(1000 * (time.process_time() - start))} ms', flush=True)
