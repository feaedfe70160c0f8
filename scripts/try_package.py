#!/usr/bin/env python3
"""Tries the package: it is made twice, looked at by lintian, installed into a fresh root folder, used there, and removed.

  scripts/try_package.py

The programs are those that are built, or those of the folder MPW_PROGRAMS; it builds none. A line shows each step. What can't be tried here
(without dpkg, lintian or root, say) is left out with a sentence. The exit status is 0 if nothing failed.
"""
import concurrent.futures
import contextlib
import filecmp
import gzip
import os
import re
import resource
import shlex
import shutil
import subprocess
import sys
import tempfile
import threading
import time

import fresh_root
import installed_files
import versions

HERE = os.path.dirname(os.path.abspath(__file__))
EXAMPLES = "/usr/share/doc/mpw/examples"
# The folder of the root in which all is tried.
ROOM = "/var/tmp/try"
# The SHA-256 of the officer's token abc.
DIGEST = "ba7816bf8f01cfea414140de5dae2223b00361a396177a9cb410ff61f20015ad"
LIMIT = 60
# On a machine with much other work.
LONGEST = 900
POLICY = ["grant submit ring officer", "grant read ring officer", "grant place ring officer", "grant deck desk officer", "grant run desk officer",
          f"submit ring TOP @{EXAMPLES}/pad-ring.gds", "place ring frame R0 0 0", f"deck @{EXAMPLES}/pad-ring.deck", "run", "status"]


class Failed(Exception):
    """A step failed; the text says why."""


def run(*words, status=0, **more):
    """What a command prints, on both outputs. It has to end with this status."""
    how = {"stdin": subprocess.DEVNULL, "stdout": subprocess.PIPE, "stderr": subprocess.STDOUT, "timeout": LONGEST, **more}
    try:
        ran = subprocess.run(words, check=False, **how)
    except subprocess.TimeoutExpired:
        raise Failed(f"{shlex.join(words)} hadn't ended after {LONGEST} s") from None
    text = ran.stdout.decode(errors="replace")
    if ran.returncode != status:
        raise Failed(f"{shlex.join(words)} ended with {ran.returncode}, expected {status}: {text}")
    return text


def need(what, is_so):
    if not is_so:
        raise Failed(what)


def packages(folder):
    """Makes the package twice, side by side; the path of the .deb."""
    with concurrent.futures.ThreadPoolExecutor() as pool:
        list(pool.map(lambda name: run(f"{HERE}/package.py", f"{folder}/{name}"), ("one", "two")))
    names = sorted(os.listdir(f"{folder}/one"))
    _, differing, faulty = filecmp.cmpfiles(f"{folder}/one", f"{folder}/two", names, shallow=False)
    need(f"a second run writes other bytes: {differing} {faulty}", not differing and not faulty and len(names) == 2)
    return next(f"{folder}/one/{name}" for name in names if name.endswith(".deb"))


def has_same_files(deb):
    """The tar file has the files of the package."""
    lines = run("dpkg-deb", "--contents", deb).splitlines()
    ours = {line.split(None, 5)[5].split(" -> ")[0][2:] for line in lines if not line.startswith("d")}
    theirs = set(run("tar", "-tzf", deb[:-4] + ".tar.gz").split())
    need(f"the tar file has other files: {sorted(ours ^ theirs)}", ours == theirs)


def lint(deb):
    """Lintian finds no error."""
    if not shutil.which("lintian"):
        return "not tried: lintian isn't installed"
    # It leaves files in the folder for temporary ones.
    own = {"env": {**os.environ, "TMPDIR": os.path.dirname(deb)}}
    found = run("lintian", "--no-cfg", "--fail-on", "error", *(["--allow-root"] if os.geteuid() == 0 else []), deb, **own)
    need(found, not re.search("^E: ", found, re.M))
    return None


def unit_of(root):
    """The variables of the unit's [Service] section."""
    with open(f"{root}/usr/lib/systemd/system/mpw.service", encoding="ascii") as file:
        return dict(line.rstrip("\n").split("=", 1) for line in file if re.match(r"[A-Za-z]+=", line) and not line.startswith("Environment"))


def variables_of(root):
    """The variables of the service: those that the unit sets, and those of the configuration."""
    with open(f"{root}/usr/lib/systemd/system/mpw.service", encoding="ascii") as unit, open(f"{root}/etc/mpw/mpw.conf", encoding="ascii") as conf:
        return dict(re.findall(r'^Environment="(MPW_\w+)=(.*)"$', unit.read(), re.M) + re.findall(r"^(MPW_\w+)=(.*)$", conf.read(), re.M))


def command_of(root):
    """What systemd starts, with the variables in it."""
    found = variables_of(root)
    program, _, *words = unit_of(root)["ExecStart"].lstrip("@").split(" ")
    whole = [re.sub(r"\$\{(\w+)\}", lambda it: found[it[1]], word) for word in words]
    return [program, *(part for word in whole for part in (found[word[1:]].split() if word.startswith("$") else [word]))]


def make_store(root):
    """Makes the store as docs/install.md does, if the unit asks for one that is there."""
    if "--existing" in command_of(root):
        found = variables_of(root)
        words = ["mpw", "script", "--officer", found["MPW_OFFICER"], "--digest", found["MPW_DIGEST"], "--store", found["MPW_STORE"], "--new", "--private"]
        run("chroot", f"--userspec={unit_of(root)['User']}", root, *words)


def configure(root):
    """Writes an officer and a free port into the configuration."""
    path = f"{root}/etc/mpw/mpw.conf"
    with open(path, encoding="ascii") as file:
        text = file.read()
    text = re.sub("^MPW_DIGEST=$", f"MPW_DIGEST={DIGEST}", text, flags=re.M)
    with open(path, "w", encoding="ascii") as file:
        file.write(re.sub("^MPW_LISTEN=.*$", "MPW_LISTEN=127.0.0.1:0", text, flags=re.M))


@contextlib.contextmanager
def service(root):
    """The service as the unit starts it, with its user, mask and limit of memory; its port."""
    unit, words = unit_of(root), command_of(root)
    most = int(unit["LimitAS"].rstrip("G")) << 30

    def limited():
        os.umask(int(unit["UMask"], 8))
        resource.setrlimit(resource.RLIMIT_AS, (most, most))

    words = ["chroot", f"--userspec={unit['User']}", root, *words]
    with subprocess.Popen(words, stdin=subprocess.DEVNULL, stdout=subprocess.PIPE, stderr=subprocess.PIPE, preexec_fn=limited) as process:
        patience = threading.Timer(LIMIT, process.kill)
        patience.start()
        try:
            told = process.stdout.readline().decode()
            patience.cancel()
            found = re.fullmatch(r"listening (127\.0\.0\.1:[0-9]+)\n", told)
            if not found:
                process.kill()
                raise Failed(f"the service printed {told!r}: {process.communicate(timeout=LIMIT)[1]!r}")
            yield found[1]
        finally:
            patience.cancel()
            process.terminate()
            process.wait(LIMIT)


def ask(root, address, *lines):
    """What mpw-ask prints in the root folder."""
    words = ["chroot", root, "mpw-ask", address, "--user", "root", "--token-file", f"{ROOM}/token", "--role", "officer", "--wait", *lines]
    return run(*words)


def check(root):
    """`mpw check` finds the two markers of the example, and writes a report and a page. It takes a compressed library, and a deck with a comment."""
    os.mkdir(root + ROOM)
    words = ["mpw", "check", "--deck", f"{EXAMPLES}/bars.deck", "--top", "TOP", "--report", f"{ROOM}/bars.lyrdb", "--page", f"{ROOM}/bars.html"]
    found = run("chroot", root, *words, f"{EXAMPLES}/two-bars.gds", status=1)
    need(found, "OK 2\n" in found and all(os.path.isfile(f"{root}{ROOM}/bars.{kind}") for kind in ("lyrdb", "html")))
    for source, target, change in ("two-bars.gds", "a.gds.gz", gzip.compress), ("bars.deck", "a.deck", lambda data: b"# Bars.\r\n" + data):
        with open(f"{root}{EXAMPLES}/{source}", "rb") as file, open(f"{root}{ROOM}/{target}", "wb") as out:
            out.write(change(file.read()))
    words = ["mpw", "check", "--deck", f"{ROOM}/a.deck", f"{ROOM}/a.gds.gz"]
    found = run("chroot", root, *words, status=1, stderr=subprocess.DEVNULL)
    with open(f"{root}{ROOM}/known.txt", "w", encoding="ascii") as file:
        file.write(found)
    found = run("chroot", root, *words, f"--known={ROOM}/known.txt")
    need(found, "2 markers: 2 known, 0 new" in found)
    version = run("chroot", root, "mpw", "--version").splitlines()
    need(str(version), version[0] == f"mpw {versions.version()}" and len(version) == 4)
    need("mpw foo", "no command" in run("chroot", root, "mpw", "foo", status=2))
    run("chroot", root, "mpw", "help", "submit")
    run("chroot", root, "python3", "-c", "import mpw_desk; mpw_desk.Desk")


def serve(root):
    """A service stores what is asked, is stopped, and goes on with it."""
    configure(root)
    with open(f"{root}{ROOM}/token", "w", encoding="ascii") as file:
        file.write("abc\n")
    os.chmod(f"{root}{ROOM}/token", 0o600)
    make_store(root)
    with service(root) as address:
        need("finished", "finished" in ask(root, address, *POLICY))
    with service(root) as address:
        markers = ask(root, address, "markers")
        need(markers, markers.startswith("OK ") and markers != "OK 0\n")
    need("rows", re.search("(?m)^rows [0-9]+", run("chroot", root, "mpw", "store", "check", "/var/lib/mpw/desk.db")))
    need("trail", "submit ring TOP" in run("chroot", root, "mpw", "trail", "/var/lib/mpw/desk.db"))
    summary = run("chroot", root, "mpw-ask", "--log-summary", "/var/log/mpw/desk.log")
    need(summary, "connections" in summary and "calls left: at most" in summary)
    for path in "lib/mpw/desk.db", "log/mpw/desk.log":
        need(f"{path} may be read by others", os.stat(f"{root}/var/{path}").st_mode & 0o77 == 0)


def remove(root, before):
    """Removing leaves the configuration and the store, and purging leaves a store alone."""
    run("dpkg", "--root", root, "--remove", "mpw")
    need("the configuration is gone", os.path.isfile(f"{root}/etc/mpw/mpw.conf"))
    need("a store wasn't named", "so it stays" in run("dpkg", "--root", root, "--purge", "mpw"))
    need("the store is gone", os.path.isfile(f"{root}/var/lib/mpw/desk.db"))
    shutil.rmtree(f"{root}/var/lib/mpw")
    run("chroot", root, "userdel", "mpw")
    shutil.rmtree(root + ROOM)
    after = fresh_root.snapshot(root)
    need(f"left: {sorted(path for path in after.keys() | before.keys() if after.get(path) != before.get(path))}", after == before)


def in_root(deb):
    """Installs the package into a fresh root folder, uses it and removes it; with a second time for a package that is never used."""
    try:
        with fresh_root.fresh_root() as root:
            before = fresh_root.snapshot(root)
            run("dpkg", "--root", root, "--install", deb)
            check(root)
            serve(root)
            remove(root, before)
            run("dpkg", "--root", root, "--install", deb)
            run("dpkg", "--root", root, "--purge", "mpw")
            need("an unused package leaves something", fresh_root.snapshot(root) == before)
    except fresh_root.NoRoot as why:
        return f"not tried: {why}"
    return None


def main(words):
    if words:
        print(__doc__, file=sys.stderr)
        return 2
    for tool in "dpkg", "dpkg-deb":
        if not shutil.which(tool):
            print(f"package: not tried: {tool} isn't installed")
            return 0
    if not os.environ.get("MPW_PROGRAMS") and installed_files.unbuilt():
        print(f"package: not tried: a program isn't built, or a source is newer: {' '.join(installed_files.unbuilt())}")
        return 0
    began = time.monotonic()
    with tempfile.TemporaryDirectory(prefix="mpw-package-") as folder:
        try:
            deb = packages(folder)
            with concurrent.futures.ThreadPoolExecutor() as pool:
                steps = {pool.submit(step, deb): step.__name__ for step in (has_same_files, lint, in_root)}
                for step in concurrent.futures.as_completed(steps):
                    print(f"package: {steps[step]}: {step.result() or 'passed'}, {time.monotonic() - began:.0f} s", flush=True)
        except Failed as fault:
            print(f"package: {fault}")
            return 1
    return 0


if __name__ == "__main__":
    sys.exit(main(sys.argv[1:]))
