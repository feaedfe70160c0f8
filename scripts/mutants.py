"""Mutants, and batches of them: one run of `rt check` tries several at once, each in a function of its own.

A mutant is a deliberately wrong function body that the prover must reject. A contract is all that a caller sees of a function. So a mutant is refused
in its own function or nowhere, and mutants of different functions don't disturb one another.
"""
import functools
import glob
import os
import re
import subprocess

TOP = os.path.dirname(os.path.dirname(os.path.abspath(__file__)))
FOLDERS = ("must-fail", "audit")
# The most mutants of a batch: a function that is refused takes longer than one that is proved.
MOST = 12
# What rt says of a function. One that only calls a function without a proof has no reason of its own: its mutant is tried by itself.
SAID = re.compile(r"^fn \w+::(\S+?): (proved|no proof|not proved)(?!: it calls)", re.M)
FUNCTION = re.compile(r"^( *)(?:pub(?:\([\w:]+\))? )?(?:const )?(?:unsafe )?fn (\w+)", re.M)
IMPL = re.compile(r"^impl(?:<.*?>)? (?:(?P<trait>[\w:]+)(?:<(?P<of>[^>]*)>)? for )?(?P<type>\w+)", re.M)


class Mutant:
    """A mutant: its crate, its folder there and its name without `.edit`."""

    def __init__(self, crate, folder, file):
        self.crate, self.folder, self.file = crate, folder, file
        self.name = file.removesuffix(".edit")
        self.key = crate, self.name

    @property
    def path(self):
        return f"{TOP}/crates/{self.crate}/{self.folder}/{self.file}"

    def changes(self):
        """The path, the old and the new text of each change."""
        found, path, old = [], "", None
        with open(self.path, encoding="utf-8") as edit:
            for line in edit.read().split("\n"):
                if line.startswith("file: "):
                    path = line[len("file: ") :].strip()
                elif line.startswith("old: "):
                    old = line[len("old: ") :]
                elif line.startswith("new:"):
                    found.append((path, old or "", re.sub(r"\A ", "", line[len("new:") :])))
                    old = None
        return found

    def texts(self, top=TOP):
        """The changed texts by their path in the crate, or a sentence why it can't be applied."""
        if not self.file.endswith(".edit"):
            return {}, "its name does not end in .edit"
        texts = {}
        for path, old, new in self.changes():
            file = f"{top}/crates/{self.crate}/{path}"
            if not path or not old or not os.path.isfile(file):
                return {}, "it names no file or no text"
            if path not in texts:
                with open(file, encoding="utf-8") as text:
                    texts[path] = text.read()
            found = texts[path].count(old)
            if found != 1:
                return {}, f"its text stands {found} times in {path}"
            texts[path] = texts[path].replace(old, new)
        return texts, "" if texts else "it changes nothing"

    def function(self):
        """The path of the function whose body it changes, as rt names it, or nothing if it changes something else."""
        found = {function_at(self.crate, path, old) for path, old, _ in self.changes()}
        return found.pop() if len(found) == 1 else None


def mutants_of(crates):
    """The mutants of the crates, sorted by crate and name."""
    found = []
    for crate in crates:
        for folder in FOLDERS:
            path = f"{TOP}/crates/{crate}/{folder}"
            files = sorted(os.listdir(path)) if os.path.isdir(path) else []
            found += [Mutant(crate, folder, file) for file in files]
    return sorted(found, key=lambda it: it.key)


def function_at(crate, path, old):
    """The function in whose body a text stands, or nothing."""
    file = f"{TOP}/crates/{crate}/{path}"
    if not path.startswith("src/") or not os.path.isfile(file):
        return None
    with open(file, encoding="utf-8") as source:
        text = source.read()
    place = text.find(old)
    before = [it for it in FUNCTION.finditer(text, 0, place + len(old)) if it.start() <= place]
    if place < 0 or not before:
        return None
    indent, name = before[-1].groups()
    head = text[before[-1].start() : place]
    is_in_body = re.search(r"\{\n", head.split("\n")[0] + "\n") or f"\n{indent}{{\n" in head
    if not is_in_body or f"\n{indent}}}\n" in head:
        return None
    owner, kind = owner_at(text[: before[-1].start()]) if indent else ("", None)
    module = module_of(home_of(crate, kind) or path)
    return "::".join(it for it in (module, owner, name) if it)


def module_of(path):
    """The module of a file, as rt writes it."""
    module = re.sub(r"^src/|\.rt$", "", path).replace("/", "::")
    return "" if module in ("lib", "main") else module


@functools.cache
def home_of(crate, kind):
    """The file of a crate that defines a type, or nothing."""
    top = f"{TOP}/crates/{crate}"
    for path in sorted(glob.glob(f"{top}/src/**/*.rt", recursive=True)) if kind else []:
        with open(path, encoding="utf-8") as source:
            if re.search(rf"^(?:pub(?:\([\w:]+\))? )?(?:struct|enum|union|trait) {kind}\b", source.read(), re.M):
                return os.path.relpath(path, top)
    return None


def owner_at(text):
    """The name of the `impl` at the end of a text, as rt writes it, and the type whose module has it."""
    found = list(IMPL.finditer(text))
    if not found:
        return "", None
    kind, trait = found[-1]["type"], (found[-1]["trait"] or "").split("::")[-1]
    of = "".join(word.split("::")[-1].strip() for word in (found[-1]["of"] or "").split(","))
    return (kind, kind) if trait in ("", "Drop") else (kind + trait + of, None)


def batches_of(mutants):
    """Batches of the mutants of one crate, and the mutants that have to be tried alone. No two of a batch change one function, and each one's text
    is still found once after the others' changes."""
    batches, alone = [], []
    for mutant in mutants:
        function = mutant.function()
        if function is None or mutant.texts()[1]:
            alone.append(mutant)
            continue
        batch = next((it for it in batches if function not in it and len(it) < MOST and changed({**it, function: mutant}, TOP)), None)
        if batch is None:
            batches.append(batch := {})
        batch[function] = mutant
    return batches, alone


def changed(batch, tree):
    """The texts of a clone's crate with the changes of all mutants of a batch, or nothing if these don't fit together."""
    texts = {}
    for mutant in batch.values():
        for path, old, new in mutant.changes():
            file = f"{tree}/crates/{mutant.crate}/{path}"
            if file not in texts:
                with open(file, encoding="utf-8") as text:
                    texts[file] = text.read()
            if texts[file].count(old) != 1:
                return {}
            texts[file] = texts[file].replace(old, new)
    return texts


def tried_together(tree, batch, seconds):
    """Tries a batch in a clone that has the libraries below. It gives the mutants that are refused, each with its function."""
    crate, texts, before = next(iter(batch.values())).crate, changed(batch, tree), {}
    for file, text in texts.items():
        with open(file, encoding="utf-8") as old:
            before[file] = old.read()
        with open(file, "w", encoding="utf-8") as new:
            new.write(text)
    words = [f"{tree}/scripts/rt", "check", "--jobs", "1", *(word for function in batch for word in ("--only", function))]
    try:
        ran = subprocess.run(words, cwd=f"{tree}/crates/{crate}", stdout=subprocess.PIPE, stderr=subprocess.STDOUT, text=True, timeout=seconds,
                             check=False) if texts else None
    except subprocess.TimeoutExpired:
        ran = None
    finally:
        for file, text in before.items():
            with open(file, "w", encoding="utf-8") as old:
                old.write(text)
    said = dict(SAID.findall(ran.stdout)) if ran else {}
    return {mutant.key: f"refused by `{function.split('::')[-1]}`" for function, mutant in batch.items()
            if said.get(function) in ("no proof", "not proved")}
