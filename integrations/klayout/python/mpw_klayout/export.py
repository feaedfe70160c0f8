"""Writes a cell as GDSII that `mpw check` and a desk accept. This needs KLayout."""
from typing import List, NamedTuple

import pya

from mpw_klayout.check import is_plain, unit_of

LARGEST = 65535  # of a layer's numbers
LONGEST_NAME = 255


class Exported(NamedTuple):
    """The name of the structure that a cell became, and a sentence for each layer that isn't in the file."""

    top: str
    notes: List[str]


def export(layout, cell, path: str) -> Exported:
    """Writes a cell and all below it, in the layout's database unit. Raises Stopped if mpw doesn't accept that unit."""
    unit_of(layout.dbu)
    options = pya.SaveLayoutOptions()
    options.format = "GDS2"
    options.select_cell(cell.cell_index())
    options.write_context_info = False
    options.gds2_max_cellname_length = LONGEST_NAME
    options.gds2_multi_xy_records = False
    options.gds2_no_zero_length_paths = True
    options.gds2_write_cell_properties = False
    options.gds2_write_file_properties = False
    options.gds2_write_timestamps = False
    options.deselect_all_layers()
    notes = []
    for index in layout.layer_indexes():
        info = layout.get_info(index)
        if 0 <= info.layer <= LARGEST and 0 <= info.datatype <= LARGEST:
            options.add_layer(index, pya.LayerInfo())
        elif not cell.bbox_per_layer(index).empty():
            notes.append(f"layer {info} isn't exported: GDSII needs two numbers from 0 to {LARGEST}")
    layout.write(path, options)
    return Exported(cell.name if is_plain(cell.name) else top_of(path), notes)


def top_of(path: str) -> str:
    """The name of the only structure of a file that no other places."""
    options = pya.LoadLayoutOptions()
    options.set_layer_map(pya.LayerMap(), False)
    written = pya.Layout()
    written.read(path, options)
    return written.top_cell().name
