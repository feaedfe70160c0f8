#!/usr/bin/env python3
"""Makes a Debian package and a tar file of the proved programs, with all that `mpw install --prefix /usr` installs.

  scripts/package.py [FOLDER]

It writes mpw_VERSION_amd64.deb and mpw_VERSION_amd64.tar.gz to the folder (out/package). Both have the same files. A second run of the same
commit writes the same bytes: each time stamp is that of the commit, or SOURCE_DATE_EPOCH. Programs that aren't built are proved and built
first.
"""
import gzip
import hashlib
import os
import re
import subprocess
import sys
import tarfile
import tempfile
import time

import installed_files
import versions
from installed_files import TOP, File

ARCHITECTURE = "amd64"
MAINTAINER = "Poxurbai maintainers <maintainers@users.noreply.poxurbai.example>"
DOC = "/usr/share/doc/mpw"
# The bytes of a library's name that a program asks for, and the package that has it.
LIBRARIES = {b"libc.so.6\0": "libc6", b"libm.so.6\0": "libc6", b"libgcc_s.so.1\0": "libgcc-s1"}
CONTROL = """Package: mpw
Version: {version}
Section: electronics
Priority: optional
Architecture: {architecture}
Maintainer: {maintainer}
Installed-Size: {size}
Depends: {depends}
Recommends: logrotate
Suggests: klayout
Description: sign-off desk of a multi-project wafer
 Several firms share one wafer, and each submits its layout as GDSII. mpw
 checks a layout with a deck of rules for width, space, separation and
 enclosing, and prints each violation. Its desk decides who may submit, see,
 waive and sign, and stores each change before it replies.
 .
 The package has the checker, the desk with a unit for systemd, and clients in
 Python. {state}
"""
STATES = {
    installed_files.PROVED: "A prover has checked each function of the programs.",
    installed_files.UNPROVED: "Its programs are unproved and for tests alone.",
}
# The programs have the bytes that were linked after the proof, so nothing is stripped off.
OVERRIDES = """# Nothing is stripped off: the programs are the files that were linked after the proof.
mpw: unstripped-binary-or-object
mpw: hardening-no-fortify-functions
"""


def changelog(version, seconds):
    """A changelog of one entry, as Debian wants it."""
    date = time.strftime("%a, %d %b %Y %H:%M:%S +0000", time.gmtime(seconds))
    return f"mpw ({version}) unstable; urgency=medium\n\n  * Commit {versions.commit()}.\n\n -- {MAINTAINER}  {date}\n"


def packed(text):
    return gzip.compress(text.encode(), 9, mtime=0)


def all_files(paths, state, seconds):
    """The files of the package."""
    found = installed_files.files(installed_files.layout_of("/usr"), paths, state, seconds)
    found.append(File(f"{DOC}/copyright", installed_files.read(f"{TOP}/packaging/copyright")))
    found.append(File(f"{DOC}/changelog.gz", packed(changelog(versions.version(), seconds))))
    found.append(File("/usr/share/lintian/overrides/mpw", OVERRIDES.encode()))
    return sorted(found)


def depends(programs):
    """The packages that the programs need, by the libraries and the versions of symbols that they name, and Python."""
    data = b"".join(programs)
    symbols = [tuple(map(int, it.split(b"."))) for it in re.findall(rb"GLIBC_(2\.[0-9]+)(?:\.[0-9]+)?\0", data)]
    found = {package: package for name, package in LIBRARIES.items() if name in data}
    if symbols and "libc6" in found:
        found["libc6"] = "libc6 (>= {}.{})".format(*max(symbols))
    return ", ".join([*found.values(), "passwd", "python3:any (>= 3.7)"])


def control_files(files, state):
    """The control files of the package by their names, with their modes."""
    programs = [it.data for it in files if it.data.startswith(b"\x7fELF")]
    size = sum(1 + len(it.data) // 1024 for it in files)
    text = CONTROL.format(version=versions.version(), architecture=ARCHITECTURE, maintainer=MAINTAINER, size=size, depends=depends(programs),
                          state=STATES[state])
    sums = "".join(f"{hashlib.md5(it.data).hexdigest()}  {it.path[1:]}\n" for it in files if it.link is None and not it.is_edited)
    conf = "".join(f"{it.path}\n" for it in files if it.is_edited)
    scripts = {name: (installed_files.read(f"{TOP}/packaging/{name}"), 0o755) for name in ("postinst", "prerm", "postrm")}
    return {"control": (text.encode(), 0o644), "md5sums": (sums.encode(), 0o644), "conffiles": (conf.encode(), 0o644), **scripts}


def write(path, data, mode):
    os.makedirs(os.path.dirname(path), exist_ok=True)
    with open(path, "wb") as file:
        file.write(data)
    os.chmod(path, mode)


def write_tree(folder, files, seconds):
    """Writes the files below a folder, all with the same time and with modes that don't depend on who writes them."""
    for it in files:
        if it.link is None:
            write(folder + it.path, it.data, it.mode)
        else:
            os.makedirs(os.path.dirname(folder + it.path), exist_ok=True)
            os.symlink(it.link, folder + it.path)
    for at, folders, names in os.walk(folder, topdown=False):
        for name in names:
            os.utime(f"{at}/{name}", (seconds, seconds), follow_symlinks=False)
        os.chmod(at, 0o755)
        os.utime(at, (seconds, seconds))


def write_deb(path, files, state, seconds):
    with tempfile.TemporaryDirectory() as room:
        tree = f"{room}/mpw"
        control = [File(f"/DEBIAN/{name}", data, mode) for name, (data, mode) in control_files(files, state).items()]
        write_tree(tree, [*files, *control], seconds)
        words = ["dpkg-deb", "--root-owner-group", "--threads-max=1", "-Zxz", "-z3", "--build", tree, path]
        subprocess.run(words, env={**os.environ, "SOURCE_DATE_EPOCH": str(seconds)}, stdout=subprocess.DEVNULL, check=True)


def write_tar(path, files, seconds):
    """Writes the tar file: files in order, of root. It has no folders, so that a link to one stays a link where it is unpacked."""
    def plain(it):
        it.uid = it.gid = 0
        it.uname = it.gname = "root"
        return it

    with tempfile.TemporaryDirectory() as room, open(path, "wb") as out:
        write_tree(room, files, seconds)
        with gzip.GzipFile("", "wb", 6, out, mtime=seconds) as packer, tarfile.open(fileobj=packer, mode="w", format=tarfile.GNU_FORMAT) as tar:
            for it in files:
                tar.add(room + it.path, it.path[1:], recursive=False, filter=plain)


def main(words):
    if len(words) > 1 or any(word.startswith("-") for word in words):
        print(__doc__, file=sys.stderr)
        return 2
    folder = os.path.abspath(words[0] if words else f"{TOP}/out/package")
    seconds = int(os.environ.get("SOURCE_DATE_EPOCH") or versions.commit_time())
    try:
        paths, state = installed_files.present_programs()
    except installed_files.Unbuilt as fault:
        print(f"mpw: {fault}", file=sys.stderr)
        return 70
    files = all_files(paths, state, seconds)
    os.makedirs(folder, exist_ok=True)
    name = f"{folder}/mpw_{versions.version()}_{ARCHITECTURE}"
    write_deb(f"{name}.deb", files, state, seconds)
    write_tar(f"{name}.tar.gz", files, seconds)
    for path in f"{name}.deb", f"{name}.tar.gz":
        print(f"{hashlib.sha256(installed_files.read(path)).hexdigest()}  {path}")
    return 0


if __name__ == "__main__":
    sys.exit(main(sys.argv[1:]))
