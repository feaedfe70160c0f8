"""The rules of a deck on a library's structure TOP by KLayout, a line a rule: its name, how many
pairs of edges were found, and their boxes. Projection on merged polygons; `width` shielded, the others
unshielded, as klayout_options.py tells.

QT_QPA_PLATFORM=offscreen klayout -b -r klayout_deck.py -rd deck=DECK -rd library=FILE

A box is that of both edges, left:bottom:right:top in nm: of a marker on axis V x1:y0:x2:y1, and of
one on axis H y0:x1:y1:x2."""
import pya

FARTHEST = 2**30

layout = pya.Layout()
layout.read(library)  # noqa: F821, given by -rd
top = layout.cell('TOP')


def region(word):
    """The merged polygons of a layer L/D."""
    number = layout.find_layer(*map(int, word.split('/')))
    found = pya.Region() if number is None else pya.Region(top.begin_shapes_rec(number))
    return found.merge()


for line in list(open(deck))[1:]:  # noqa: F821, given by -rd
    kind, name, *layers, distance = line.split()
    first, *others = map(region, layers)
    check = getattr(first, f'{kind}_check')
    pairs = check(*others, int(distance), False, pya.Region.Projection, 90, 0, FARTHEST, kind == 'width')
    boxes = [pair.bbox() for pair in pairs.each()]
    found = sorted((box.left, box.bottom, box.right, box.top) for box in boxes)
    print(name, len(found), *(':'.join(map(str, box)) for box in found))
