"""The options of each command, from the sources of the programs: what `mpw COMMAND --help` prints of them. Defaults are listed here."""
import argparse
import functools
import glob
import importlib.machinery
import importlib.util
import os
import re
import sys


TOP = os.path.dirname(os.path.dirname(os.path.abspath(__file__)))
ASKED, SETTINGS, AUDITOR = "crates/mpw_firm_options/src", "crates/mpw_settings/src", "crates/mpw_auditor/src"
# The function that makes a command's form, after its file. It and the functions of its crate that it calls make the options.
SOURCES = {
    "mpw check": (f"{ASKED}/options.rt", "command"),
    "mpw stitch": (f"{ASKED}/stitch_options.rt", "command"),
    "mpw script": (f"{SETTINGS}/script.rt", "script_command"),
    "mpw serve": (f"{SETTINGS}/service_options.rt", "serve_command"),
    "mpw trail": (f"{AUDITOR}/settings.rt", "trail_command"),
    "mpw store": (f"{AUDITOR}/settings.rt", "store_command"),
}
CLIENTS = ("mpw-ask", "mpw-assemble", "mpw-report", "mpw-page", "mpw-backup")
MUST, OFF, NO_FILE = "must be given", "off", "no file is written"
HELP = ("-h, --help", "off", "Prints the options")
VERSION = ("-V, --version", "off", "Prints the version of the command line")
# What the client takes of a check (clients/python/mpw_checking.sh prints the same).
CLIENTS_OF_CHECK = (
    ("--page OUT", "A file for the markers and the shapes as one page for a browser; it needs --top"),
    ("--known FILE", "A listing of accepted markers: only other ones count for the exit status"),
)
# What ./mpw takes itself, and the toolchain's command lines take besides.
FURTHER = {
    "mpw check": (*((form, NO_FILE if form.endswith("OUT") else "none", text) for form, text in CLIENTS_OF_CHECK), HELP, VERSION),
    "mpw stitch": (HELP, VERSION),
    "mpw script": (HELP,), "mpw serve": (HELP,), "mpw trail": (HELP,), "mpw store": (HELP,),
}
DEFAULTS = {
    "mpw check": {"--top": "the only structure that no other one places", "--report": NO_FILE, "--picture": NO_FILE, "--marker": "all is drawn",
                  "--tiles": "the whole layout", "--tile": "the deck's", "--skip-layers": "no layer", "--limit": "no limit"},
    "mpw stitch": {"--report": NO_FILE, "--limit": "no limit"},
    "mpw script": {"--store": "nothing is stored"},
    "mpw serve": {"--log": "no log", "--store": "nothing is stored", "--stranger-memory": "no limit; 64 with --ongoing",
                  "--stranger-rate": "no limit; 20 with --ongoing", "--login-limit": "no limit; 120 with --ongoing"},
    "mpw trail": {"--payload": "the rows are listed"},
    "mpw-ask": {"--user": "no session is opened", "--token-file": "the variable MPW_TOKEN", "--role": "no role", "--report": NO_FILE,
                "--page": NO_FILE, "--placements": "each cell is at its own origin", "--script": "HOST:PORT must be given"},
    "mpw-assemble": {"--manifest": "OUT.gds.json"},
    "mpw-report": {"--junit": NO_FILE, "--json": NO_FILE, "--markdown": NO_FILE},
    "mpw-backup": {"--newest": "all copies stay"},
}
# What mpw-report says of these in its description.
REPORTS = {"--junit": "JUnit XML: a test case for each rule", "--json": "JSON lines: an object for each marker",
           "--markdown": "a summary: a table of the rules, and the first markers of each"}
# A call that makes an option, and one of another function.
CALL = re.compile(r"\b(?:free_option|required_option|flag|word|Arg::new)\(\s*alloc,\s*\"")
OTHER = re.compile(r"\b(\w+)\(\s*alloc\b")
TEXT = re.compile(r'"((?:[^"\\]|\\.)*)"')
FUNCTION = re.compile(r"^(?:pub(?:\(crate\))? )?fn (\w+)<(.*?)^}$", re.M | re.DOTALL)


@functools.cache
def functions(folder):
    """The functions of a crate by file and name, each with its text; a text goes on after a backslash."""
    found = {}
    for path in sorted(glob.glob(f"{folder}/**/*.rt", root_dir=TOP, recursive=True)):
        with open(f"{TOP}/{path}", encoding="utf-8") as file:
            found |= {(path, name): body for name, body in FUNCTION.findall(re.sub(r"\\\n\s*", "", file.read()))}
    return found


def option_of(text):
    """What a call makes: its form, whether it has to be given, its default, and its help."""
    texts = TEXT.findall(text)
    name, is_flag = texts[0], "SetTrue" in text or text.startswith("flag")
    is_word = text.startswith("word") or text.startswith("Arg::new") and ".long(" not in text
    value = re.search(r'value_name\(\s*"([^"]*)"', text)
    shown = value[1] if value else texts[1] if len(texts) > 2 and not is_flag else ""
    helped = re.search(r'\.help\(\s*"([^"]*)"', text)
    meaning = helped[1] if helped else texts[1] if text.startswith("flag") else texts[2]
    given = re.search(r'default_value\("([^"]*)"', text)
    is_must = "required_option" in text or "required(true)" in text or text.startswith("word")
    long = shown if is_word else f"--{name}" + (f" {shown}" if shown else "")
    default = MUST if is_must else given[1] if given else OFF if is_flag else None
    return long, default, meaning


def reached(place):
    """The functions that a function calls, itself first: of those of one name the one in its file, or else the only one."""
    known = functions(os.path.dirname(place[0]))
    found = [place]
    for path, name in found:
        for called in OTHER.findall(known[path, name]):
            same = [it for it in known if it[1] == called]
            chosen = [it for it in same if it[0] == path] or (same if len(same) == 1 else [])
            found += [it for it in chosen if it not in found]
    return found


def options_in(place):
    """The options that a function and those that it calls make. Those that have to be given are first."""
    found = []
    for it in reached(place):
        body = functions(os.path.dirname(place[0]))[it]
        starts = [call.start() for call in CALL.finditer(body)]
        found += [option_of(body[start:end]) for start, end in zip(starts, [*starts[1:], len(body)])]
    return sorted(found, key=lambda option: option[1] != MUST)


def parser_of(client):
    """The parser of a client's program."""
    sys.path.insert(0, f"{TOP}/clients/python")
    loader = importlib.machinery.SourceFileLoader(client.replace("-", "_") + "_options", f"{TOP}/clients/python/{client}")
    module = importlib.util.module_from_spec(importlib.util.spec_from_loader(loader.name, loader))
    loader.exec_module(module)
    if hasattr(module, "parser"):
        return module.parser()
    found = []

    def caught(parser, *_):
        found.append(parser)
        raise SystemExit
    before, argparse.ArgumentParser.parse_args = argparse.ArgumentParser.parse_args, caught
    try:
        module.options_of([])
    except SystemExit:
        pass
    argparse.ArgumentParser.parse_args = before
    return found[0]


def option_of_client(client, action):
    """An option of a client's program, or nothing for one that its help doesn't list."""
    form = ", ".join(action.option_strings) or action.metavar
    if action.help == argparse.SUPPRESS and form not in REPORTS:
        return None
    if action.dest == "help":
        return HELP
    value = f" {action.metavar}" if action.option_strings and action.nargs != 0 else ""
    is_set = action.default is not None and action.default is not argparse.SUPPRESS and action.default != []
    default = OFF if action.nargs == 0 else MUST if action.required else f"{action.default:g}" if isinstance(action.default, float) else None
    default = str(action.default) if default is None and is_set else default
    default = "the standard input" if default == "-" else default
    meaning = REPORTS.get(form) or action.help.removesuffix(f" ({default})").removesuffix(f" ({action.default})")
    return form + value, default, meaning[0].upper() + meaning[1:]


def options_of(command):
    """The options of a command: form, default and meaning, in order."""
    if command in SOURCES:
        found = options_in(SOURCES[command]) + list(FURTHER[command])
    else:
        found = [option for action in parser_of(command)._actions if (option := option_of_client(command, action))]
    return [(form, default or DEFAULTS.get(command, {}).get(form.split(" ")[0], "none"), meaning.split("; by default ")[0]) for form, default, meaning in found]


def names_of(command):
    """The names of a command's options, as they are written on a command line."""
    return {name for form, _, _ in options_of(command) for name in re.findall(r"--?[\w-]+", form)}


def table_of(command):
    rows = [f"| `{form}` | {default} | {meaning} |" for form, default, meaning in options_of(command)]
    return "\n".join(["| Option | Default | What it does |", "|-|-|-|", *rows]) + "\n"


def unlisted():
    """The functions that make an option of no command."""
    known = {place for root in SOURCES.values() for place in reached(root)}
    found = [place for folder in (ASKED, SETTINGS, AUDITOR) for place, body in functions(folder).items() if CALL.search(body) and place not in known]
    return [f"{path}: {name} makes an option of no command that scripts/option_tables.py knows" for path, name in found]


def made_tables():
    """The tables of all commands by their names."""
    return {f"options of {command}": table_of(command) for command in (*SOURCES, *CLIENTS)}


if __name__ == "__main__":
    print("\n".join(f"{name}\n{text}" for name, text in made_tables().items()))
