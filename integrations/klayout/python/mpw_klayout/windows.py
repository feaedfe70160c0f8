"""Windows of KLayout, and what it stores for the next time. This needs KLayout."""
import os
from typing import Dict, List, NamedTuple, Sequence

import pya

from mpw_klayout.script import path_of

TITLE = "mpw"
PREFIX = "mpw-"  # of a setting's name in KLayout's configuration


class Field(NamedTuple):
    """A line of a form: the setting that it is stored as, its label, a hint, and whether it is a file."""

    name: str
    label: str
    hint: str = ""
    is_file: bool = False


def main_window():
    return pya.Application.instance().main_window()


def setting(name: str) -> str:
    return pya.Application.instance().get_config(PREFIX + name) or ""


def store(name: str, value: str) -> None:
    """Stores a setting. KLayout writes its settings when it ends, and here at once."""
    pya.Application.instance().set_config(PREFIX + name, value)
    pya.Application.instance().commit_config()


def say(text: str, details: str = "") -> None:
    """Shows a sentence, and below it details, which may be long."""
    dialog = pya.QDialog(main_window())
    dialog.windowTitle = TITLE
    box = pya.QVBoxLayout(dialog)
    label = pya.QLabel(text, dialog)
    label.wordWrap = True
    label.textFormat = pya.Qt.PlainText
    label.textInteractionFlags = pya.Qt.TextSelectableByMouse
    box.addWidget(label)
    if details:
        shown = pya.QPlainTextEdit(dialog)
        shown.setPlainText(details)
        shown.readOnly = True
        box.addWidget(shown)
    box.addLayout(buttons(dialog, ["Close"]))
    dialog.resize(640, 320 if details else 120)
    dialog.exec_()


def buttons(dialog, names: Sequence[str]):
    """A row of buttons; the last one accepts a dialog, any other one rejects it."""
    row = pya.QHBoxLayout()
    row.addStretch(1)
    for name in names:
        button = pya.QPushButton(name, dialog)
        accepts = name == names[-1]
        button.clicked = (lambda *_: dialog.accept()) if accepts else (lambda *_: dialog.reject())
        button.default = accepts
        row.addWidget(button)
    return row


def ask_open(title: str, kinds: str, start: str = "") -> str:
    """The file that the user chooses to be read; nothing if none is chosen."""
    return pya.QFileDialog.getOpenFileName(main_window(), title, start, kinds) or ""


def ask_save(title: str, kinds: str, start: str = "") -> str:
    """The file that the user chooses to be written; nothing if none is chosen."""
    return pya.QFileDialog.getSaveFileName(main_window(), title, start, kinds) or ""


def browse(edit, label):
    """Puts the file that the user chooses into a line."""
    path = ask_open(label, "All files (*)", edit.text)
    if path:
        edit.text = path


def ask(title: str, fields: List[Field], accept: str, values: Dict[str, str]) -> Dict[str, str]:
    """Asks for values in a form, which begins with the stored ones or with `values`. Stores and returns them; nothing if the
    user cancels."""
    dialog = pya.QDialog(main_window())
    dialog.windowTitle = title
    box, form = pya.QVBoxLayout(dialog), pya.QFormLayout()
    edits = {}
    for field in fields:
        edit = pya.QLineEdit(dialog)
        edit.text = values.get(field.name, setting(field.name))
        edit.placeholderText = field.hint
        edits[field.name] = edit
        row = pya.QHBoxLayout()
        row.addWidget(edit)
        if field.is_file:
            button = pya.QPushButton("...", dialog)
            button.autoDefault = False
            button.clicked = lambda *_, edit=edit, label=field.label: browse(edit, label)
            row.addWidget(button)
        form.addRow(pya.QLabel(field.label, dialog), row)
    box.addLayout(form)
    box.addLayout(buttons(dialog, ["Cancel", accept]))
    dialog.resize(520, 80)
    if dialog.exec_() != 1:
        return {}
    found = {name: edit.text.strip() for name, edit in edits.items()}
    for name, value in found.items():
        store(name, value)
    return found


def current_script() -> str:
    """The DRC script of the macro editor's current tab; nothing if the editor isn't open or shows another file."""
    for window in pya.QApplication.topLevelWidgets():
        # KLayout's own widgets are known by their names.
        tabs = window.findChild("tabWidget") if is_macro_editor(window) else None
        path = path_of(tabs.tabToolTip(tabs.currentIndex)) if tabs is not None and tabs.currentIndex >= 0 else ""
        if path.endswith((".drc", ".lydrc")) and os.path.isfile(path):
            return path
    return ""


def is_macro_editor(window):
    return window.isVisible() and "Macro Development" in window.windowTitle


def remove_markers(view, name: str) -> None:
    """Removes the reports of that name from a view."""
    for index in reversed(range(view.num_rdbs())):
        if view.rdb(index).name() == name:
            view.remove_rdb(index)


def show_markers(view, cellview: int, report: str) -> None:
    """Opens the marker browser with a report, in the place of an earlier one of that file name, which is its name. It is a
    report of the cellview's file."""
    name = os.path.basename(report)
    remove_markers(view, name)
    number = view.create_rdb(name)
    view.rdb(number).load(report)
    view.rdb(number).original_file = view.cellview(cellview).filename()
    view.show_rdb(number, cellview)
