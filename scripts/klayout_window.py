"""Draws KLayout's window and its marker browser: KLayout runs this, for scripts/pictures.py.

  klayout -rx -rd layout=GDS -rd report=LYRDB -rd window=PNG -rd browser=PNG -rm scripts/klayout_window.py
"""
import os
import traceback

import pya


def settle():
    """Lets KLayout draw."""
    for _ in range(20):
        pya.QApplication.instance().processEvents()


def below(parent):
    """All that a window has."""
    for child in parent.children():
        yield child
        yield from below(child)


def open_rules(tree):
    """Opens the rules and their cells, and selects the first rule, so that its markers are listed."""
    rules = tree.model.index(1, 0, pya.QModelIndex())
    tree.expand(rules)
    for row in range(tree.model.rowCount(rules)):
        tree.expand(tree.model.index(row, 0, rules))
    tree.setColumnWidth(0, 210)
    tree.setCurrentIndex(tree.model.index(0, 0, rules))


def draw():
    main = pya.MainWindow.instance()
    main.resize(1100, 640)
    main.load_layout(layout, 1)  # noqa: F821, as are the other names of -rd
    view = main.current_view()
    view.max_hier()
    number = view.create_rdb("markers")
    view.rdb(number).load(report)  # noqa: F821
    view.show_rdb(number, 0)
    settle()
    markers = next(it for it in pya.QApplication.topLevelWidgets() if it.isVisible() and "Marker" in it.windowTitle)
    markers.resize(900, 500)
    for it in below(markers):
        # Between the tree, and the list with what is known of one marker.
        if hasattr(it, "setSizes") and it.orientation == pya.Qt.Horizontal:
            it.setSizes([340, 540])
    tree = next(it for it in below(markers) if it.objectName == "directory_tree")
    # Its rows are By Cell, By Category and All.
    tree.setCurrentIndex(tree.model.index(2, 0, pya.QModelIndex()))
    settle()
    main.grab().save(window)  # noqa: F821
    open_rules(tree)
    settle()
    markers.grab().save(browser)  # noqa: F821


try:
    draw()
except BaseException:
    traceback.print_exc()
# KLayout would go on without a window.
os._exit(0)
