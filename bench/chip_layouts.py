"""Layouts of the size of a chip, for chips.py.

Kinds that gen_chip.cpp writes. It is compiled when the first is needed:

  wires N      N boxes on layer 1 and half as many on layer 2, anywhere
  array2 M     M by M cells of four shapes in one array, each with violations
  array4 M     the same cells in arrays of arrays of arrays; M is a multiple of 64, and of 128 from 2048 on
  orient N     N cells in all eight orientations, placed one at a time, and arrays of such cells
  routed N     N standard cells in rows, wires on two more layers over them, and four memories of 65,536 bits; it has eight rules in three groups

Kinds of this file; for nested, crossed and marked N is a power of four:

  array N      N cells of four shapes in one array. Each has two boxes that are too narrow and is too near to its neighbours: six markers a cell
  nested2 N    N cells of four shapes in arrays of arrays of two levels, each level with a box that is too narrow
  nested4 N    the same in four levels
  crossed2 N   as nested2; the cells' wires go on into the next cell in both directions
  crossed4 N   the same in four levels
  marked2 N    as nested2; each cell has a box that is too narrow, so there are more than N markers
  marked4 N    the same in four levels
  chip N       N standard cells of twelve kinds in rows, every second row mirrored, arrays as macros, wires over them
  mixed N      N cells in all eight orientations, placed one at a time, with polygons and paths
"""
import os
import random
import struct
import subprocess

import layouts

HERE = os.path.dirname(os.path.abspath(__file__))
DECK = 'tile 65536\nwidth width 1/0 56\nspace space 1/0 51\nseparation separation 1/0 2/0 9\nenclosing enclosing 1/0 2/0 10\n'
ROUTED_DECK = ('tile 8192\nwidth w1 1/0 56\nspace s1 1/0 51\nseparation p12 1/0 2/0 9\nenclosing e12 1/0 2/0 10\n'
               'width w3 3/0 56\nspace s3 3/0 51\nwidth w4 4/0 56\nspace s4 4/0 51\n')
GENERATED = ('wires', 'array2', 'array4', 'orient', 'routed')


def generator(folder):
    """The program that gen_chip.cpp compiles to."""
    program = os.path.join(folder, 'gen_chip')
    if not os.path.exists(program):
        subprocess.run(['c++', '-O2', '-std=c++20', '-o', program, os.path.join(HERE, 'gen_chip.cpp')], check=True)
    return program


def reference(name, x, y, flags=0, angle=None):
    """A reference with an orientation: flags 0x8000 mirror it, and the angle turns it."""
    out = layouts.record(0x0A, 0) + layouts.record(0x12, 6, layouts.text(name))
    out += layouts.record(0x1A, 1, struct.pack('>H', flags))
    if angle:
        out += layouts.record(0x1C, 5, {90: b'\x42\x5a', 180: b'\x42\xb4', 270: b'\x43\x10\xe0'}[angle].ljust(8, b'\0'))
    return out + layouts.record(0x10, 3, struct.pack('>2i', x, y)) + layouts.record(0x11, 0)


def begin(out, name):
    out.write(layouts.record(0x05, 2, bytes(24)) + layouts.record(0x06, 6, layouts.text(name)))


def end(out):
    out.write(layouts.record(0x07, 0))



# A cell with violations, which overlaps none at a pitch of 300.
DENSE = [(1, 0, 0, 100, 250), (1, 0, 100, 250, 150), (1, 200, 0, 250, 90), (2, 20, 20, 60, 60)]
# A cell without a violation, at a pitch of 300, and a box that is too narrow.
CELL = [(1, 0, 0, 100, 240), (1, 160, 0, 240, 90), (1, 160, 150, 240, 240), (2, 20, 20, 60, 60)]
# A cell whose wires overlap those of the cells right of it and above.
CROSSED = [(1, 0, 0, 320, 80), (1, 0, 140, 100, 320), (1, 160, 140, 240, 240), (2, 20, 20, 60, 60)]
# A cell with a box that is too narrow.
MARKED = CELL[:2] + [(1, 160, 150, 214, 240), (2, 20, 20, 60, 60)]
NARROW = (1, -120, 0, -66, 240)


def array(out, n):
    """The cells of runs.py's arrays."""
    side = 1 << (n.bit_length() - 1) // 2
    begin(out, b'CELL')
    for shape in DENSE:
        out.write(layouts.boundary(*shape))
    end(out)
    begin(out, b'TOP')
    out.write(layouts.array(b'CELL', side, side, 300))
    end(out)


def nested(out, n, levels, shapes=None):
    """Arrays of arrays: the least power of two on a side goes to each level, and what is left to the innermost."""
    bits = (n.bit_length() - 1) // 2
    each = [bits // levels] * levels
    each[0] += bits - sum(each)
    begin(out, b'CELL')
    for shape in shapes or CELL:
        out.write(layouts.boundary(*shape))
    end(out)
    pitch, name = 300, b'CELL'
    for level, count in enumerate(each):
        side = 1 << count
        begin(out, b'TOP' if level == levels - 1 else b'L%d' % level)
        out.write(layouts.array(name, side, side, pitch) + layouts.boundary(*NARROW))
        end(out)
        name = b'L%d' % level
        pitch = pitch * side + 300


HEIGHT, GRID = 2400, 200


def standard_cell(out, kind, width):
    """Two rails, and wires and contacts between them."""
    random.seed(100 + kind)
    begin(out, b'STD%d' % kind)
    right = width * GRID
    for y in (0, HEIGHT):
        out.write(layouts.boundary(1, 0, y - 60, right, y + 60))
    for column in range(width):
        x = column * GRID + 70
        low, high = random.randrange(200, 700, 10), random.randrange(1500, 2200, 10)
        out.write(layouts.boundary(1, x, low, x + (54 if kind + column == 0 else 60), high))
        for _ in range(3):
            y = random.randrange(low, high - 60, 10)
            out.write(layouts.boundary(2, x + 10, y, x + 50, y + 40))
    end(out)


def chip(out, n):
    widths = [3, 4, 4, 5, 6, 6, 7, 8, 8, 10, 12, 14]
    for kind, width in enumerate(widths):
        standard_cell(out, kind, width)
    begin(out, b'BIT')
    for shape in CELL:
        out.write(layouts.boundary(*shape))
    end(out)
    begin(out, b'MACRO')
    out.write(layouts.array(b'BIT', 128, 64, 300))
    end(out)
    begin(out, b'TOP')
    random.seed(2)
    in_row = int((n * HEIGHT / (7 * GRID)) ** 0.5)
    rows = (n + in_row - 1) // in_row
    for row in range(rows):
        x, mirrored = 0, row % 2 == 1
        for _ in range(min(in_row, n - row * in_row)):
            kind = random.randrange(len(widths))
            y = (row + 1) * HEIGHT if mirrored else row * HEIGHT
            out.write(reference(b'STD%d' % kind, x, y, 0x8000 if mirrored else 0))
            x += widths[kind] * GRID
    for macro in range(max(1, n // 20000)):
        out.write(reference(b'MACRO', (macro % 8) * 45000, -25000 - (macro // 8) * 25000))
    far = in_row * 7 * GRID
    for _ in range(n // 2):
        x, y = random.randrange(far), random.randrange(rows) * HEIGHT + random.randrange(1, 11) * GRID + 130
        out.write(layouts.boundary(3, x, y, x + random.randrange(400, 8000), y + 60))
    end(out)


def mixed(out, n):
    begin(out, b'PART')
    points = struct.pack('>14i', 0, 0, 300, 0, 300, 60, 60, 60, 60, 200, 0, 200, 0, 0)
    out.write(layouts.record(0x08, 0) + layouts.record(0x0D, 2, b'\0\1') + layouts.record(0x0E, 2, b'\0\0')
              + layouts.record(0x10, 3, points) + layouts.record(0x11, 0))
    points = struct.pack('>6i', 120, 120, 280, 120, 280, 260)
    out.write(layouts.record(0x09, 0) + layouts.record(0x0D, 2, b'\0\1') + layouts.record(0x0E, 2, b'\0\0')
              + layouts.record(0x0F, 3, struct.pack('>i', 60)) + layouts.record(0x10, 3, points) + layouts.record(0x11, 0))
    out.write(layouts.boundary(2, 10, 10, 50, 50))
    end(out)
    begin(out, b'TOP')
    random.seed(3)
    side = int(n**0.5) * 420
    for _ in range(n):
        out.write(reference(b'PART', random.randrange(side), random.randrange(side), random.choice((0, 0x8000)),
                            random.choice((None, 90, 180, 270))))
    end(out)


KINDS = {'array': array, 'nested2': lambda out, n: nested(out, n, 2), 'nested4': lambda out, n: nested(out, n, 4),
         'crossed2': lambda out, n: nested(out, n, 2, CROSSED), 'crossed4': lambda out, n: nested(out, n, 4, CROSSED),
         'marked2': lambda out, n: nested(out, n, 2, MARKED), 'marked4': lambda out, n: nested(out, n, 4, MARKED), 'chip': chip, 'mixed': mixed}


def deck_of(kind):
    return ROUTED_DECK if kind == 'routed' else DECK


def write(path, kind, n, folder):
    """Writes a layout of a kind. A folder holds the compiled generator."""
    if kind in GENERATED:
        subprocess.run([generator(folder), kind, str(n), path], check=True)
        return
    with open(path, 'wb', buffering=1 << 20) as out:
        out.write(layouts.HEAD + layouts.UNITS)
        KINDS[kind](out, n)
        out.write(layouts.record(0x04, 0))
