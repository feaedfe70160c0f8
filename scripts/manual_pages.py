"""Manual pages, in the form of man(7), made from the table of `mpw help` (crates/mpw_help) and from the help that the programs print.

`pages` returns the text of each by its file name.
"""
import re
import time

import help_tables

ABOUT_MPW = """Several firms share one wafer, and each submits its layout as GDSII. A cell is what a firm submits. A deck is the text with
the rules, and a marker is one violation of one rule. mpw checks a cell, or the assembled wafer, with one deck. Its desk
decides who may submit, see, waive and sign."""
SERVICE = (
    "The package has a unit for systemd. It isn't enabled, since the desk needs an officer first.",
    "Write the officer and the digest of the officer's token into @CONF@. Then enable and start the unit:",
    ["  head -c 16 /dev/urandom | od -An -tx1 | tr -d ' \\n' > officer.token",
     "  sha256sum < officer.token | cut -c 1-64",
     "  systemctl enable --now mpw"],
    "The unit runs as the user mpw. Every other variable of the service is in the same file.",
)
SEE = {
    "mpw.1": "mpw-ask(1), mpw-check(1), mpw-serve(8)", "mpw-check.1": "mpw(1), mpw-page(1), mpw-report(1), klayout(1)",
    "mpw-serve.8": "mpw(1), mpw-ask(1), mpw-backup(1), systemd.service(5)",
}
TOOLS = {
    "mpw-ask": "asks a sign-off desk, line by line", "mpw-page": "writes a page with the markers of a structure",
    "mpw-assemble": "writes the GDSII of a wafer as it was signed", "mpw-report": "writes a listing of markers for other tools",
    "mpw-backup": "copies the store of a desk, also while the desk serves it",
}


def escaped(text):
    """A text as man(7) shows it; what is between backquotes is bold."""
    text = text.replace("\\", "\\e").replace("-", "\\-").replace("^", "\\(ha").replace("~", "\\(ti").replace("'", "\\(aq")
    text = re.sub(r"`([^`]*)`", r"\\fB\1\\fR", text)
    return "\\&" + text if text.startswith(".") else text


def sentence(text):
    """A text of the table as a sentence."""
    return f"{text[0].upper()}{text[1:]}."


def paragraphs(blocks):
    """Blocks of a help text; one whose lines are all indented stays as it is."""
    found = []
    for block in blocks:
        lines = [block] if isinstance(block, str) else block
        if all(line.startswith("  ") for line in lines):
            found += [".PP", ".nf", ".RS", *(escaped(line.strip()) for line in lines), ".RE", ".fi"]
        else:
            found += [".PP", *(escaped(line) for line in lines)]
    return found


def tagged(tag, *texts):
    """A paragraph with a tag."""
    return [".TP", tag, *(escaped(text) for text in texts if text)]


def option_lines(options):
    """Options and arguments, each with its help."""
    found = []
    for it in options:
        names = ", ".join(f"\\fB{escaped(name)}\\fR" for name in it.names)
        value = f"\\fI{escaped(it.value)}\\fR" if it.value else ""
        found += tagged(" ".join(part for part in (names, value) if part), it.help or "-")
    return found


def usage_lines(usages):
    return [line for it in usages for line in (".nf", escaped(it), ".fi")]


def exit_lines(statuses):
    """Statuses as the table has them: '0 meaning; 1 meaning'."""
    found = []
    for status in statuses.split("; "):
        number, _, meaning = status.partition(" ")
        found += tagged(f"\\fB{number}\\fR", meaning)
    return found


def entry_lines(entry):
    """What the table has of a request, a denial or a code."""
    extra = [f"Tests in order: {entry['tests']}." if "tests" in entry else "", f"Reply: {entry['reply']}." if "reply" in entry else ""]
    extra.append(f"What to do: {entry['remedy']}." if "remedy" in entry else "")
    return tagged(f"\\fB{escaped(entry['form'])}\\fR", sentence(entry["meaning"]), *extra)


class Maker:
    """Makes the pages of a version, by the help of the commands and of the tools."""

    def __init__(self, version, seconds, commands, tools, conf):
        self.version, self.date = version, time.strftime("%Y-%m-%d", time.gmtime(seconds))
        self.commands, self.tools, self.conf = commands, tools, conf
        self.entries = {it["word"]: it for _, listed in help_tables.tables() for it in listed if it["kind"] == "Command"}

    def page(self, file, short, *sections):
        """A page: what it is in short, and its sections, each with its title."""
        name, _, number = file.rpartition(".")
        manual = "System administration" if number == "8" else "User commands"
        found = [f'.TH {name.upper()} {number} "{self.date}" "mpw {self.version}" "{manual}"', ".SH NAME", f"{escaped(name)} \\- {escaped(short)}"]
        if file in SEE:
            sections += (("SEE ALSO", [escaped(SEE[file])]),)
        for title, lines in sections:
            found += [f".SH {title}", *lines]
        return "\n".join(found) + "\n"

    def meaning(self, command):
        """What a command does: the table's words, or those of its help."""
        if command in self.entries:
            return self.entries[command]["meaning"]
        return " ".join(line for block in self.commands[command].about for line in block)

    def command_section(self, command, title=None):
        """A command with its options and exit statuses, as a subsection or without a title."""
        found = [f".SS mpw {title}", *usage_lines(self.commands[command].usages)] if title else []
        found += paragraphs([sentence(self.meaning(command))])
        found += option_lines(it for _, listed in self.commands[command].groups for it in listed)
        if command in self.entries:
            found += [".PP", "Exit status:", *exit_lines(self.entries[command]["statuses"])]
        return found

    def overview(self):
        words = [("check", "mpw-check(1)"), ("stitch", "mpw-check(1)"), ("serve", "mpw-serve(8)")]
        listed = [line for word, page in words for line in tagged(f"\\fBmpw {word}\\fR", f"{self.meaning(word)}. See {page}.")]
        listed += tagged("\\fBmpw help\\fR [\\fIWORD\\fR]", self.meaning("help"))
        for word in "script", "trail", "store":
            listed += self.command_section(word, word)
        usage = usage_lines(["mpw COMMAND [OPTION ..]", "mpw help [WORD]", "mpw --version"])
        tables = []
        for title, entries in help_tables.tables():
            if entries[0]["kind"] != "Command":
                tables += [f".SS {escaped(title)}", *(line for it in entries for line in entry_lines(it))]
        return self.page(
            "mpw.1", "the sign-off desk of a multi-project wafer", ("SYNOPSIS", usage), ("DESCRIPTION", paragraphs([ABOUT_MPW])),
            ("COMMANDS", listed), ("REQUESTS, DENIALS AND CODES", tables))

    def check(self):
        example = paragraphs([["  mpw check --deck rules.deck --top TOP --report cell.lyrdb cell.gds", "  klayout cell.gds -m cell.lyrdb"]])
        usage = usage_lines(self.commands["check"].usages + self.commands["stitch"].usages)
        return self.page(
            "mpw-check.1", "checks a structure of a GDSII library under a deck", ("SYNOPSIS", usage),
            ("DESCRIPTION", self.command_section("check")), ("PARTS OF A CHECK", self.command_section("stitch")), ("EXAMPLES", example))

    def serve(self):
        service = paragraphs([it.replace("@CONF@", self.conf) if isinstance(it, str) else it for it in SERVICE])
        files = tagged(f"\\fI{self.conf}\\fR", "the variables of the unit") + tagged("\\fI/var/lib/mpw/desk.db\\fR", "the store, with desk.db-wal")
        files += tagged("\\fI/var/log/mpw/desk.log\\fR", "the log; `mpw-ask --log-summary` prints a summary of it")
        return self.page(
            "mpw-serve.8", "serves a sign-off desk to many users", ("SYNOPSIS", usage_lines(self.commands["serve"].usages)),
            ("DESCRIPTION", self.command_section("serve")), ("SERVICE", service), ("FILES", files))

    def tool(self, name):
        it = self.tools[name]
        options = [line for title, listed in it.groups for line in [f".SS {escaped(title)}", *option_lines(listed)]]
        return self.page(
            f"{name}.1", TOOLS[name], ("SYNOPSIS", usage_lines(it.usages)), ("DESCRIPTION", paragraphs(it.about)), ("OPTIONS", options),
            *((("NOTES", paragraphs(it.after)),) if it.after else ()), ("SEE ALSO", ["mpw(1)"]))


def pages(version, seconds, commands, tools, conf):
    """The text of each page by its file name, as mpw.1. `commands` and `tools` have the help of each by its name."""
    maker = Maker(version, seconds, commands, tools, conf)
    return {"mpw.1": maker.overview(), "mpw-check.1": maker.check(), "mpw-serve.8": maker.serve(), **{f"{name}.1": maker.tool(name) for name in TOOLS}}
