"""The checks of a library's structure TOP by KLayout, with the time that they take:
klayout -b -r klayout_runs.py -rd library=FILE -rd mode=flat|tiled|deep -rd side=NM -rd threads=N -rd shielded=yes|no [-rd listed=yes] [-rd deck=FILE]

Without a deck the checks are the four of `gate_bench job`. With listed=yes the pairs of the deep mode are made flat, as those of the others
are: a list of all of them, and not of each once for all instances of its cell.

Shielded, KLayout leaves out a pair of edges with another edge between them. Of our rules `width` alone does so. So KLayout's `width` is
always shielded."""
import time

import pya

FOUR = 'width a 1/0 56\nspace b 1/0 51\nseparation c 1/0 2/0 9\nenclosing d 1/0 2/0 10'
FARTHEST = 2**30
MARGIN = 100

text = open(deck).read() if 'deck' in globals() else FOUR  # noqa: F821, given by -rd
CHECKS = [(words[0], words[2:-1], int(words[-1])) for words in map(str.split, text.splitlines()) if words and words[0] != 'tile']
layout = pya.Layout()
layout.read(library)  # noqa: F821, given by -rd
top = layout.cell('TOP')
layers = sorted({layer for _, used, _ in CHECKS for layer in used})
numbers = {layer: layout.find_layer(*map(int, layer.split('/'))) for layer in layers}
is_shielded = shielded == 'yes'  # noqa: F821


def whole(*store):
    """Counts by one pass over all of the layers."""
    regions = {layer: pya.Region(top.begin_shapes_rec(number), *store) for layer, number in numbers.items()}
    for region in regions.values():
        region.merge()
    found = []
    for kind, (first, *others), distance in CHECKS:
        check = getattr(regions[first], f'{kind}_check')
        found.append(check(*(regions[it] for it in others), distance, False, pya.Region.Projection, 90, 0, FARTHEST, is_shielded or kind == 'width'))
    if globals().get('listed') == 'yes':
        for pairs in found:
            pairs.flatten()
    return [pairs.count() for pairs in found]


def tiled():
    """Counts tile by tile: a pair across a seam is found in both tiles."""
    processor = pya.TilingProcessor()
    nanometre = layout.dbu
    processor.tile_size(int(side) * nanometre, int(side) * nanometre)  # noqa: F821
    processor.tile_border(MARGIN * nanometre, MARGIN * nanometre)
    processor.threads = int(threads)  # noqa: F821
    names = {layer: f'layer{place}' for place, layer in enumerate(layers)}
    for layer, number in numbers.items():
        processor.input(names[layer], layout, top.cell_index(), number)
    outputs = []
    for place, (kind, (first, *others), distance) in enumerate(CHECKS):
        outputs.append(pya.EdgePairs())
        processor.output(f'rule{place}', outputs[-1])
        other = ''.join(f'{names[it]}, ' for it in others)
        options = f'false, Region.Projection, 90, 0, {FARTHEST}, {str(is_shielded or kind == "width").lower()}'
        processor.queue(f'_output(rule{place}, {names[first]}.{kind}_check({other}{distance}, {options}))')
    processor.execute('checks')
    return [output.count() for output in outputs]


start = time.time()
if mode == 'flat':  # noqa: F821
    counts = whole()
elif mode == 'deep':  # noqa: F821
    store = pya.DeepShapeStore()
    store.threads = int(threads)  # noqa: F821
    counts = whole(store)
else:
    counts = tiled()
taken = time.time() - start
print(*counts, 'pairs')
print(f'{taken:.3f} s')
