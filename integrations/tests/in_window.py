"""In KLayout under an X server, for test_klayout and the page's picture: chooses entries of the menu, and fills in their windows.

  klayout -rd given=JSON -rd found=JSON -rm in_window.py
"""
import json
import os
import traceback

import pya
from mpw_klayout import windows

with open(given, encoding="utf-8") as file:  # noqa: F821, as is `found`: -rd sets them
    VALUES = json.load(file)
MAIN = pya.Application.instance().main_window()
WIDTH, HEIGHT = 1160, 700
SEEN = []


def settle():
    """Lets KLayout draw."""
    for _ in range(30):
        pya.QApplication.processEvents()


def below(parent):
    """All that a window has."""
    for child in parent.children():
        yield child
        yield from below(child)


def of_kind(window, *kinds):
    return [it for it in below(window) if isinstance(it, kinds)]


def texts(window):
    """What a window shows: its title, its labels, its lines and its long texts."""
    return [window.windowTitle, [it.text for it in of_kind(window, pya.QLabel)], [it.text for it in of_kind(window, pya.QLineEdit)],
            [it.toPlainText() for it in of_kind(window, pya.QPlainTextEdit)]]


class Hand:
    """What the user does with the windows that an entry opens: for each the values that go into its lines, and its button."""

    def __init__(self, steps):
        self.steps = steps
        self.timer = pya.QTimer()
        self.timer.interval = 200
        self.timer.timeout = self.act
        self.timer.start()

    def act(self):
        window = pya.QApplication.activeModalWidget()
        if window is None or not self.steps:
            return
        try:
            values, name = self.steps[0]
            button = next((it for it in of_kind(window, pya.QPushButton) if it.text.replace("&", "") == name), None)
            if button is None:  # a window of KLayout's own, as that of its progress
                return
            del self.steps[0]
            for edit, value in zip(of_kind(window, pya.QLineEdit), values):
                edit.text = value
            settle()
            SEEN.append(texts(window))
            button.click()
        except BaseException:
            traceback.print_exc()
            os._exit(1)


def choose(title, steps):
    """Chooses an entry of the menu."""
    hand = Hand(steps)
    menu = MAIN.menu()
    path = next(it for it in menu.items("tools_menu.mpw") if menu.action(it).title == title)
    menu.action(path).trigger()
    settle()
    hand.timer.stop()


def browser():
    return next(it for it in pya.QApplication.topLevelWidgets() if it.isVisible() and "Marker" in it.windowTitle)


def draw(path):
    """Writes a picture of the main window with the marker browser over a corner of it."""
    markers = browser()
    markers.resize(520, 400)
    tree = next(it for it in below(markers) if it.objectName == "directory_tree")
    tree.setExpanded(tree.model.index(1, 0, pya.QModelIndex()), True)
    tree.setCurrentIndex(tree.model.index(2, 0, pya.QModelIndex()))
    MAIN.current_view().zoom_box(pya.DBox(*VALUES["zoom"]))
    settle()
    whole, over = MAIN.grab(), markers.grab()
    painter, x, y = pya.QPainter(whole), WIDTH - over.width() - 12, HEIGHT - over.height() - 40
    painter.fillRect(pya.QRect(x - 1, y - 23, over.width() + 2, over.height() + 24), pya.QColor(70, 90, 120))
    painter.setPen(pya.QColor(255, 255, 255))
    painter.drawText(x + 8, y - 7, markers.windowTitle)
    painter.drawPixmap(x, y, over)
    painter.end()
    whole.save(path)


def entries():
    """The titles of the package's entries."""
    return [MAIN.menu().action(it).title for it in MAIN.menu().items("tools_menu.mpw")]


def edited(script):
    """The script that the macro editor shows, if it is opened with that one."""
    for name in "open-macros", "active-macro":
        MAIN.set_config(f"macro-editor-{name}", f"'{script}'" if name == "open-macros" else script)
    tips = pya.QTimer()
    tips.interval = 200
    tips.timeout = close_tip
    tips.start()
    MAIN.show_macro_editor("drc", False)
    settle()
    tips.stop()
    return windows.current_script()


def close_tip():
    """Closes the window of tips that the editor opens first."""
    window = pya.QApplication.activeModalWidget()
    if window is not None:
        window.close()


def main():
    """Checks a layout, and then either draws it or goes on with the other windows."""
    MAIN.resize(WIDTH, HEIGHT)
    MAIN.move(0, 0)
    MAIN.load_layout(VALUES["layout"], 1)
    MAIN.current_view().max_hier()
    choose("Settings", [[[VALUES["program"], VALUES["deck"]], "Store"]])
    choose("Check with mpw", [[[], "Close"]])
    result = {"items": MAIN.current_view().rdb(0).num_items(), "menu": entries()}
    if VALUES["picture"]:
        draw(VALUES["picture"])
    else:
        choose("Submit to a desk", [[VALUES["desk"], "Submit"], [[], "Close"]])
        result.update(script=edited(VALUES["script"]), seen=SEEN)
    with open(found, "w", encoding="utf-8") as out:  # noqa: F821
        json.dump(result, out)


def begin():
    """Runs main once KLayout has its menu."""
    if not MAIN.menu().is_valid("tools_menu.mpw"):
        return
    BEGIN.stop()
    try:
        main()
    except BaseException:
        traceback.print_exc()
    # KLayout would go on.
    os._exit(0)


BEGIN = pya.QTimer()
BEGIN.interval = 200
BEGIN.timeout = begin
BEGIN.start()
