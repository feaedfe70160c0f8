"""In KLayout, for test_klayout: does what the menu's entries do, with answers in the place of the user's."""
import json
import traceback

import pya
from mpw_klayout import actions, windows

with open(given, encoding="utf-8") as file:  # noqa: F821, as is `found`: -rd sets them
    VALUES = json.load(file)
MAIN = pya.Application.instance().main_window()
SAID = []


def answered(**answers):
    """Puts answers in the place of windows that ask, and notes what is said."""
    windows.say = lambda text, details="": SAID.append([text, details])
    windows.ask = lambda title, fields, accept, values: answers.get("form", {})
    windows.ask_open = lambda *_: answers.get("open", "")
    windows.ask_save = lambda *_: answers.get("save", "")


def opened(path, cell=""):
    MAIN.load_layout(path, 1)
    view = MAIN.current_view()
    if cell:
        view.active_cellview().cell_name = cell
    return view


def shown(value):
    """A value of an item."""
    if value.is_edge_pair():
        return str(value.edge_pair())
    return str(value.box()) if value.is_box() else value.string()


def databases(view):
    """The reports of a view: the name, the original file, the cells, and of each item its category, tags and values."""
    found = []
    for index in range(view.num_rdbs()):
        database = view.rdb(index)
        items = [[database.category_by_id(it.category_id()).name(), database.cell_by_id(it.cell_id()).name(), it.tags_str,
                  [shown(value) for value in it.each_value()]]
                 for it in database.each_item()]
        found.append([database.name(), database.original_file, items])
    return found


def checks():
    """Checks a file's cells, each twice, after the deck is chosen once."""
    windows.store("program", VALUES["program"])
    answered(open=VALUES["deck"])
    found = []
    for path, cell in VALUES["files"]:
        view = opened(path, cell)
        actions.check_cell()
        answered()
        actions.check_cell()
        found.append(databases(view))
    view = opened(VALUES["files"][0][0])
    actions.check_cell()
    before = view.num_rdbs()
    windows.store("deck", VALUES["clean"])
    actions.check_cell()
    return [*found, [before, view.num_rdbs()]]


def refusals():
    """What can't be done is said."""
    answered()
    actions.check_cell()
    actions.submit()
    MAIN.create_layout(1)
    actions.check_cell()
    view = opened(VALUES["files"][0][0])
    windows.store("program", "/nowhere/mpw")
    actions.check_cell()
    windows.store("program", VALUES["program"])
    actions.check_cell()
    view.active_cellview().layout().dbu = 0.0005
    actions.check_cell()
    actions.submit()
    actions.deck_from_script()
    actions.markers_from_desk()
    return view.num_rdbs()


def deck():
    """Makes a deck of a script, while a layout of 5 nm is open."""
    MAIN.create_layout(1).layout().dbu = 0.005
    answered(open=VALUES["script"], save=VALUES["target"])
    actions.deck_from_script()
    return windows.setting("deck")


def submit():
    opened(*VALUES["file"])
    for form in VALUES["forms"]:
        answered(form=form)
        actions.submit()


def markers():
    view = opened(*VALUES["file"])
    found = []
    for form in VALUES["forms"]:
        answered(form=form)
        actions.markers_from_desk()
        found.append(databases(view))
    return found


try:
    result = {"said": SAID, "result": globals()[VALUES["scenario"]]()}
except BaseException:
    traceback.print_exc()
else:
    with open(found, "w", encoding="utf-8") as file:  # noqa: F821
        json.dump(result, file)
