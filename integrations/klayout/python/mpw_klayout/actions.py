"""What the entries of the menu Tools > mpw do. This needs KLayout."""
import os
import re
import tempfile
from fractions import Fraction
from typing import Callable, NamedTuple

import pya

from mpw_klayout import check, deck, desk, placement, script, windows
from mpw_klayout.check import Stopped
from mpw_klayout.export import export
from mpw_klayout.windows import Field

DECKS, SCRIPTS = "Decks (*.deck);;All files (*)", "DRC scripts (*.drc *.lydrc *.rb *.lym);;All files (*)"
LOGIN = [
    Field("desk", "Desk", "desk.example:7001"), Field("user", "User"),
    Field("token-file", "Token file", "empty: the environment's MPW_TOKEN", True), Field("roles", "Roles", "with blanks between them"),
]


class Shown(NamedTuple):
    """What the current view shows."""

    view: pya.LayoutView
    cellview: int
    layout: pya.Layout
    cell: pya.Cell

    @property
    def box(self):
        """The cell's box in nm: left, bottom, right and top."""
        box = self.cell.bbox()
        return [round(it * self.layout.dbu * 1000) for it in (box.left, box.bottom, box.right, box.top)]

    def report_name(self, kind):
        """The name of a file for a report, which the marker browser shows."""
        return f"{kind} {re.sub('[^A-Za-z0-9_.-]', '_', self.cell.name)[:80]}.lyrdb"


def shown() -> Shown:
    """The current cell."""
    view = pya.LayoutView.current()
    cellview = view.active_cellview() if view is not None else None
    if cellview is None or not cellview.is_valid() or cellview.cell is None:
        raise Stopped("No layout is open.")
    return Shown(view, cellview.index(), cellview.layout(), cellview.cell)


def guarded(action: Callable[[], None]) -> Callable[[], None]:
    """An action that says why it can't be done."""

    def done():
        try:
            action()
        except Stopped as stopped:
            windows.say(str(stopped))

    return done


def deck_path() -> str:
    """The deck that was chosen; the user chooses one if there is none."""
    path = windows.setting("deck")
    if not os.path.isfile(path):
        path = windows.ask_open("The deck to check under", DECKS, path)
        if not path:
            raise Stopped("No deck is chosen. A deck has the rules; 'Deck from this DRC script' makes one.")
        windows.store("deck", path)
    return path


def run(words, folder):
    """Runs a command, while KLayout shows that it runs and lets the user cancel it."""
    progress, ticks = pya.AbsoluteProgress("mpw check"), 0

    def tick():
        nonlocal ticks
        ticks += 1
        progress.value = ticks

    return check.run(words, folder, tick)


@guarded
def check_cell() -> None:
    """Checks the current cell under the deck, and shows its markers, faults and notes."""
    now = shown()
    check.unit_of(now.layout.dbu)
    program, rules = check.program_of(windows.setting("program")), deck_path()
    with tempfile.TemporaryDirectory(prefix="mpw-klayout-") as folder:
        library, report = os.path.join(folder, "cell.gds"), os.path.join(folder, now.report_name("mpw"))
        exported = export(now.layout, now.cell, library)
        outcome = check.outcome_of(*run(check.command(program, rules, exported.top, library, report), folder), library)
        outcome = outcome._replace(notes=exported.notes + outcome.notes)
        # Markers of an earlier check would be taken for those of this one.
        windows.remove_markers(now.view, os.path.basename(report))
        if outcome.has_report and os.path.exists(report):
            show(now, report, exported.top)
    windows.main_window().message(f"mpw: {now.cell.name}: {outcome.text}", 10000)
    if outcome.details or not outcome.has_report:
        windows.say(f"{now.cell.name}: {outcome.text}", outcome.details)


def show(now, report, written):
    """Shows a report under the name of the cell in KLayout."""
    if written != now.cell.name:
        text = check.report_for(check.read(report), written, now.cell.name)
        with open(report, "w", encoding="utf-8") as file:
            file.write(text)
    windows.show_markers(now.view, now.cellview, report)


@guarded
def deck_from_script() -> None:
    """Makes a deck of a DRC script, says which lines it left out, and takes that deck for checks."""
    path = windows.current_script() or windows.ask_open("A DRC script", SCRIPTS, windows.setting("script"))
    if not path:
        return
    windows.store("script", path)
    view = pya.LayoutView.current()
    is_open = view is not None and view.active_cellview().is_valid()
    unit = Fraction(str(view.active_cellview().layout().dbu)) * 1000 if is_open else None
    try:
        with open(path, "rb") as file:
            made = deck.translated(script.text_of(file.read()), unit)
    except OSError as error:
        raise Stopped(f"{path}: {error.strerror}") from None
    windows.say(**deck.summary(made))
    target = windows.ask_save("Save the deck", DECKS, os.path.splitext(path)[0] + ".deck") if made.rules else ""
    if not target:
        return
    try:
        with open(target, "w", encoding="ascii", newline="\n") as file:
            file.write(made.deck)
    except OSError as error:
        raise Stopped(f"{target}: {error.strerror}") from None
    windows.store("deck", target)


def login_of(values):
    return desk.Login(values["desk"], values["user"], values["token-file"], values["roles"])


@guarded
def submit() -> None:
    """Submits the current cell to a desk."""
    now = shown()
    check.unit_of(now.layout.dbu)
    fields = [*LOGIN, Field("cell", "Cell on the desk", "such as pad")]
    values = windows.ask(f"Submit {now.cell.name} to a desk", fields, "Submit", {})
    if not values:
        return
    with tempfile.TemporaryDirectory(prefix="mpw-klayout-") as folder:
        library = os.path.join(folder, "cell.gds")
        exported = export(now.layout, now.cell, library)
        version = desk.submit(login_of(values), values["cell"], exported.top, library)
    windows.say(f"{now.cell.name} is version {version} of {values['cell']} on the desk.", "\n".join(exported.notes))


@guarded
def markers_from_desk() -> None:
    """Shows the markers of a desk's run in the marker browser."""
    now = shown()
    fields = [*LOGIN, Field("only-cell", "Only markers of the cell", "empty: all that you may see"),
              Field("placement", "The cell's placement", "ORIENTATION X Y in nm; empty: the layout is the wafer")]
    values = windows.ask("Markers from a desk", fields, "Show", {})
    if not values:
        return
    try:
        placed = placement.placement_of(values["placement"])
    except ValueError as error:
        raise Stopped(str(error)) from None
    run_status, markers, waivers = desk.markers_of(login_of(values))
    chosen = placement.of_cell(markers, values["only-cell"])
    if placed is not None:
        chosen = placement.near(chosen, placed, now.box)
    with tempfile.TemporaryDirectory(prefix="mpw-klayout-") as folder:
        report = os.path.join(folder, now.report_name("desk"))
        with open(report, "w", encoding="utf-8") as file:
            file.write(placement.desk_report(chosen, waivers, now.cell.name, placement=placed))
        windows.show_markers(now.view, now.cellview, report)
    windows.say(placement.summary(chosen, run_status))


@guarded
def settings() -> None:
    """Asks for the program and the deck."""
    fields = [Field("program", "Program mpw", "empty: the one on PATH", True), Field("deck", "Deck", "asked at the first check", True)]
    windows.ask("Settings of mpw", fields, "Store", {})
