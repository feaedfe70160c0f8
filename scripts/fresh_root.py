"""A small root folder with Debian's own packages, for a try of the package: it is copied from those of this system, so it needs no network.

It has bash, the core programs, dpkg and Python with what they depend on. `dpkg --root` and `chroot` work on it, which only root may do.
"""
import functools
import glob
import os
import re
import shutil
import stat
import subprocess
import tempfile
from contextlib import contextmanager

WANTED = "bash", "coreutils", "dash", "dpkg", "findutils", "grep", "gzip", "libc-bin", "libgcc-s1", "login", "passwd", "python3", "sed", "tar"
FOLDERS = "dev", "etc", "proc", "root", "run", "tmp", "var/lib/dpkg/info", "var/lib/dpkg/updates", "var/lib/dpkg/triggers", "var/log"
# On a system of today these are links below /usr.
LINKS = "bin", "lib", "lib64", "sbin"
# What dpkg and the programs that add a user leave by themselves.
NOT_OURS = re.compile(r"var/(lib/dpkg|log/dpkg\.log)|etc/(\.pwd\.lock|(passwd|group|shadow|gshadow|subuid|subgid)-)$|etc/ld\.so\.cache$")
USERS = {"etc/passwd": "root:x:0:0:root:/root:/bin/bash\n", "etc/group": "root:x:0:\n", "etc/shadow": "root:*:19000:0:99999:7:::\n", "etc/gshadow": "root:*::\n"}


class NoRoot(Exception):
    """No such folder can be made here; the text says why."""


@functools.cache
def installed():
    """The entries of dpkg's list of packages, by their names."""
    with open("/var/lib/dpkg/status", encoding="utf-8") as file:
        entries = file.read().split("\n\n")
    return {re.match(r"Package: (\S+)", it)[1]: it for it in entries if re.search(r"^Status: install ok installed$", it, re.M)}


def closure():
    """The packages that are wanted, and all that they depend on, as far as they are installed."""
    provided = {}
    for name, entry in installed().items():
        for listed in re.findall(r"^Provides: (.*)$", entry, re.M):
            provided.update({re.split(r"[ (:]", it.strip())[0]: name for it in listed.split(",")})
    left = [*WANTED]
    for name in left:
        for listed in re.findall(r"^(?:Pre-)?Depends: (.*)$", installed()[name], re.M):
            for choice in listed.split(","):
                names = [re.split(r"[ (:]", it.strip())[0] for it in choice.split("|")]
                found = [it if it in installed() else provided.get(it) for it in names]
                left += [it for it in found if it and it not in left][:1]
    return left


def copy(root, path):
    """Copies a file or a link of this system to where it is found."""
    target = root + path
    if os.path.lexists(target) or not os.path.lexists(path):
        return
    if os.path.isdir(path) and not os.path.islink(path):
        os.makedirs(target, exist_ok=True)
        return
    os.makedirs(os.path.dirname(target), exist_ok=True)
    if os.path.islink(path) or stat.S_ISREG(os.stat(path).st_mode):
        shutil.copy2(path, target, follow_symlinks=False)


def fill(root):
    """Makes the folders, copies the packages, and lists them as installed."""
    for name in FOLDERS:
        os.makedirs(f"{root}/{name}")
    for name in LINKS:
        if os.path.islink(f"/{name}"):
            os.makedirs(f"{root}/usr/{name}", exist_ok=True)
            os.symlink(f"usr/{name}", f"{root}/{name}")
    names = closure()
    listed = subprocess.run(["dpkg", "-L", *names], stdout=subprocess.PIPE, text=True, check=True).stdout.splitlines()
    for path in listed:
        if path.startswith("/") and not path.startswith(("/usr/share/doc/", "/usr/share/man/", "/usr/share/locale/", "/usr/share/info/")):
            copy(root, path)
    # The link that a package makes while it is installed.
    copy(root, "/bin/sh")
    for path, text in {**USERS, "var/lib/dpkg/status": "\n\n".join(installed()[name] for name in names) + "\n\n", "var/lib/dpkg/available": ""}.items():
        with open(f"{root}/{path}", "w", encoding="utf-8") as file:
            file.write(text)
    for path in {it for name in names for it in glob.glob(f"/var/lib/dpkg/info/{name}.list") + glob.glob(f"/var/lib/dpkg/info/{name}:*.list")}:
        copy(root, path)
    make_null(f"{root}/dev/null")
    os.chmod(f"{root}/tmp", 0o1777)


def folder_for_root():
    """A folder in which devices work and programs run. Where the temporary files are in memory, the system may refuse either."""
    why = "no folder for temporary files"
    for place in dict.fromkeys((tempfile.gettempdir(), "/var/tmp", "/tmp")):
        try:
            with tempfile.TemporaryDirectory(prefix="mpw-device-", dir=place) as folder:
                make_null(f"{folder}/null")
                with open(f"{folder}/null", "wb"):
                    shutil.copy("/bin/true", f"{folder}/true")
                    subprocess.run([f"{folder}/true"], check=False)
                    return place
        except OSError as error:
            why = f"{error.filename}: {error.strerror}"
    raise NoRoot(f"no device or no program works in a folder for temporary files: {why}")


def make_null(path):
    os.mknod(path, 0o666 | stat.S_IFCHR, os.makedev(1, 3))
    os.chmod(path, 0o666)


def need_programs(root):
    """Raises NoRoot if another user can't run a program in the folder."""
    ran = subprocess.run(["chroot", "--userspec=65534:65534", root, "/bin/true"], stdin=subprocess.DEVNULL, stdout=subprocess.PIPE,
                         stderr=subprocess.STDOUT, text=True, check=False)
    if ran.returncode:
        raise NoRoot(f"a program doesn't run in a root folder of its own: {ran.stdout.strip()}")


@contextmanager
def fresh_root():
    """A new root folder, which is removed at the end. It has the processes of the system if they can be mounted."""
    if os.geteuid() != 0 or not shutil.which("chroot"):
        raise NoRoot("only root can install into a root folder of its own")
    if not os.path.isfile("/var/lib/dpkg/status") or any(name not in installed() for name in WANTED):
        raise NoRoot("this system's packages aren't Debian's, or one of them is missing: " + " ".join(WANTED))
    with tempfile.TemporaryDirectory(prefix="mpw-root-", dir=folder_for_root()) as root:
        os.chmod(root, 0o755)
        try:
            fill(root)
        except OSError as error:
            raise NoRoot(f"{error.filename}: {error.strerror}") from None
        except subprocess.CalledProcessError as error:
            raise NoRoot(f"{error.cmd[0]} {error.cmd[1]} ended with {error.returncode}") from None
        need_programs(root)
        words = ["mount", "-t", "proc", "proc", f"{root}/proc"]
        mounted = shutil.which("mount") and subprocess.run(words, stderr=subprocess.DEVNULL, check=False).returncode == 0
        try:
            yield root
        finally:
            if mounted:
                subprocess.run(["umount", "--lazy", f"{root}/proc"], check=True)


def snapshot(root):
    """What is in the folder, but for the lists of dpkg: each path with its kind, mode, owner, and size or target."""
    found = {}
    for at, folders, names in os.walk(root):
        if at == root:
            folders.remove("proc")
        for name in (*folders, *names):
            path = f"{at}/{name}"
            it = os.lstat(path)
            what = os.readlink(path) if stat.S_ISLNK(it.st_mode) else 0 if stat.S_ISDIR(it.st_mode) else it.st_size
            found[path[len(root) + 1:]] = (it.st_mode, it.st_uid, it.st_gid, what)
    return {path: it for path, it in found.items() if not NOT_OURS.match(path)}
