"""What is installed, and where: the programs, the tools, the pages, the service. `mpw install` and the package have the same files."""
import glob
import gzip
import os
import shutil
import subprocess
import sys
from typing import NamedTuple, Optional

import completions
import help_texts
import manual_pages
import option_tables
import versions

TOP = versions.TOP
# The programs, each with the commands that it has. The first names its file.
PROGRAMS = {"mpw_main": ("serve", "script"), "mpw_firm": ("check", "stitch"), "mpw_auditor": ("trail", "store"), "mpw_manual": ("help",)}
TOOLS = tuple(manual_pages.TOOLS)
# The order in which the commands are listed.
COMMANDS = "script", "serve", "check", "stitch", "trail", "store"
PROVED, UNPROVED = "proved", "unproved, for tests alone"
# The pages, with what they link to.
PAGES = "*.md", "docs/**/*.md", "docs/images/*", "clients/python/README.md", "bench/README.md", "crates/*/README.md", "crates/*/CLAUSES.md", "examples/**/*"


class Layout(NamedTuple):
    """Where files go. Without a folder for Python modules the module is only next to the tools."""

    prefix: str
    sysconfdir: str
    python: Optional[str]
    zsh: str

    @property
    def conf(self):
        return f"{self.sysconfdir}/mpw/mpw.conf"


class File(NamedTuple):
    """A file that is installed, or a link. The administrator may edit a file that is marked so."""

    path: str
    data: bytes = b""
    mode: int = 0o644
    link: Optional[str] = None
    is_edited: bool = False


def layout_of(prefix, sysconfdir=None):
    """The layout under a prefix. Under /usr it is that of Debian."""
    is_system = prefix in ("/usr", "/usr/local")
    zsh = "vendor-completions" if prefix == "/usr" else "site-functions"
    return Layout(prefix, sysconfdir or ("/etc" if is_system else f"{prefix}/etc"), python_folder(prefix), f"{prefix}/share/zsh/{zsh}")


def python_folder(prefix):
    """The folder below the prefix in which `python3` looks for modules, or nothing."""
    if prefix == "/usr":
        return "/usr/lib/python3/dist-packages"
    words = ["python3", "-c", "import site; print('\\n'.join(site.getsitepackages()))"]
    ran = subprocess.run(words, cwd="/", stdout=subprocess.PIPE, stderr=subprocess.DEVNULL, text=True, check=False)
    return next((line for line in ran.stdout.splitlines() if line.startswith(f"{prefix}/")), None)


def read(path):
    with open(path, "rb") as file:
        return file.read()


def programs(layout, paths):
    """The programs with a name for each command."""
    folder = f"{layout.prefix}/libexec/mpw"
    for crate, (first, *others) in PROGRAMS.items():
        yield File(f"{folder}/mpw-{first}", read(paths[crate]), 0o755)
        yield from (File(f"{folder}/mpw-{name}", link=f"mpw-{first}") for name in others)


def tools(layout):
    """The commands, the tools in Python with their modules, and the module for programs of others."""
    source, folder = f"{TOP}/clients/python", f"{layout.prefix}/share/mpw/python"
    yield File(f"{layout.prefix}/bin/mpw", read(f"{TOP}/packaging/mpw"), 0o755)
    for name in TOOLS:
        yield File(f"{folder}/{name}", read(f"{source}/{name}"), 0o755)
        yield File(f"{layout.prefix}/bin/{name}", link=f"../share/mpw/python/{name}")
    names = "*.py", "*.sh", "mpw_desk/*.py", "page.html"
    for path in (it for name in names for it in glob.glob(f"{source}/{name}")):
        yield File(f"{folder}/{os.path.relpath(path, source)}", read(path))
    if layout.python:
        for path in glob.glob(f"{source}/mpw_desk/*.py"):
            yield File(f"{layout.python}/mpw_desk/{os.path.basename(path)}", read(path))


def pages(layout):
    """The pages and the examples."""
    found = {path for pattern in PAGES for path in glob.glob(f"{TOP}/{pattern}", recursive=True)}
    for path in found:
        name = os.path.relpath(path, TOP)
        if os.path.isfile(path) and not (name.startswith("examples/") and name.endswith((".py", ".pyc"))):
            yield File(f"{layout.prefix}/share/doc/mpw/{name}", read(path), 0o755 if name.endswith(".sh") else 0o644)


def made_pages(layout, paths, seconds):
    """Manual pages and completion, made from the help of the programs and of the tools."""
    owner = {command: crate for crate, commands in PROGRAMS.items() for command in commands}
    commands = {name: help_texts.help_of(paths[owner[name]], name) for name in COMMANDS}
    commands["check"] = help_texts.with_options(commands["check"], option_tables.CLIENTS_OF_CHECK)
    helps = {name: help_texts.help_of_tool(f"{TOP}/clients/python/{name}") for name in TOOLS}
    for name, text in manual_pages.pages(versions.version(), seconds, commands, helps, layout.conf).items():
        yield File(f"{layout.prefix}/share/man/man{name[-1]}/{name}.gz", gzip.compress(text.encode(), 9, mtime=0))
    folder = f"{layout.prefix}/share/bash-completion/completions"
    yield File(f"{folder}/mpw", completions.bash(commands, helps).encode())
    yield from (File(f"{folder}/{name}", link="mpw") for name in TOOLS)
    yield File(f"{layout.zsh}/_mpw", completions.zsh(commands, helps).encode())


def service(layout):
    """The units with their variables, the user and folders, and the rotation of the log."""
    names = {"@SYSCONFDIR@": layout.sysconfdir, "@LIBEXECDIR@": f"{layout.prefix}/libexec", "@BINDIR@": f"{layout.prefix}/bin"}

    def text(name):
        found = read(f"{TOP}/packaging/{name}").decode()
        for word, value in names.items():
            found = found.replace(word, value)
        return found.encode()

    for name in "mpw.service", "mpw-backup.service", "mpw-backup.timer":
        yield File(f"{layout.prefix}/lib/systemd/system/{name}", text(name))
    yield File(f"{layout.prefix}/lib/sysusers.d/mpw.conf", text("sysusers.conf"))
    yield File(f"{layout.prefix}/lib/tmpfiles.d/mpw.conf", text("tmpfiles.conf"))
    yield File(layout.conf, text("mpw.conf"), is_edited=True)
    yield File(f"{layout.sysconfdir}/logrotate.d/mpw", text("logrotate"), is_edited=True)


def files(layout, paths, state, seconds):
    """All files, by their paths. `paths` has the program of each crate, and `state` says whether they are proved."""
    version = File(f"{layout.prefix}/share/mpw/version", "".join(f"{line}\n" for line in versions.lines(state)).encode())
    found = [*programs(layout, paths), *tools(layout), *pages(layout), *made_pages(layout, paths, seconds), *service(layout), version]
    return sorted(found)


def built_path(crate):
    return f"{TOP}/crates/{crate}/out/{crate}"


def newest_source():
    """When the newest source was changed. Proofs alone don't change a program."""
    folders = glob.glob(f"{TOP}/crates/mpw_*/src") + glob.glob(f"{TOP}/crates/mpw_*/specs")
    return max(os.stat(f"{at}/{name}").st_mtime for folder in folders for at, _, names in os.walk(folder) for name in names)


class Unbuilt(Exception):
    """A program can't be built."""


def unbuilt():
    """The programs that aren't built, or are older than a source."""
    newest = newest_source()
    return [crate for crate in PROGRAMS if not os.access(built_path(crate), os.X_OK) or os.stat(built_path(crate)).st_mtime < newest]


def present_programs():
    """The path of each program, which is proved and built if it isn't there or a source is newer; and whether they are proved. Tests alone
    name a folder with other programs in MPW_PROGRAMS."""
    folder = os.environ.get("MPW_PROGRAMS")
    if folder:
        return {crate: f"{folder}/{crate}" for crate in PROGRAMS}, UNPROVED
    missing = unbuilt()
    if missing and shutil.which("rt") is None:
        raise Unbuilt("not all programs are built, and rt isn't found, so nothing is installed; first run ./mpw build")
    if missing and subprocess.run([f"{TOP}/scripts/build.py", *missing], stdin=subprocess.DEVNULL, stdout=sys.stderr, check=False).returncode:
        raise Unbuilt("the programs can't be built, so nothing is installed")
    return {crate: built_path(crate) for crate in PROGRAMS}, PROVED
