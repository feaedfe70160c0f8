"""KLayout for the tests: a home with the package in it, scripts that run there, and an X server for its windows."""
import json
import os
import shutil
import subprocess
import tempfile
import unittest
from contextlib import contextmanager

import klayout_package

HERE = os.path.dirname(os.path.abspath(__file__))
TOP = os.path.dirname(os.path.dirname(HERE))
PACKAGE = os.path.join(TOP, "integrations", "klayout")
CHECK = os.environ.get("MPW_CHECK", os.path.join(TOP, "crates", "mpw_firm", "out", "mpw_firm"))
LIMIT = 300  # seconds
HAS_KLAYOUT = unittest.skipUnless(shutil.which("klayout"), "KLayout isn't installed")
HAS_XVFB = unittest.skipUnless(shutil.which("Xvfb"), "Xvfb isn't installed")
HAS_CHECK = unittest.skipUnless(os.access(CHECK, os.X_OK), f"{CHECK} isn't built")
MINE = """<salt-mine><salt-grain><name>mpw</name><version>1.0</version><url>file://{package}</url></salt-grain></salt-mine>
"""


class InKLayout(unittest.TestCase):
    """Tests with a folder, which has a home of KLayout's."""

    def setUp(self):
        self.folder = tempfile.mkdtemp(prefix="mpw-klayout-")
        self.addCleanup(shutil.rmtree, self.folder)

    def file(self, name, data=None):
        """The path of a file, which is written if data are given."""
        path = os.path.join(self.folder, name)
        if data is not None:
            with open(path, "wb") as file:
                file.write(data if isinstance(data, bytes) else data.encode())
        return path

    def klayout(self, *words, **environment):
        """Runs KLayout; what it printed on both outputs."""
        own = {"QT_QPA_PLATFORM": "offscreen", "KLAYOUT_HOME": self.file("home"), "XDG_RUNTIME_DIR": self.folder}
        given = {**os.environ, **own, **environment}
        ended = subprocess.run(["klayout", *words], env=given, stdin=subprocess.DEVNULL, stdout=subprocess.PIPE, stderr=subprocess.STDOUT,
                               timeout=LIMIT, check=False)
        return ended.stdout.decode(errors="replace")

    def link(self):
        """Installs the package by a link."""
        os.makedirs(self.file("home/salt"))
        os.symlink(PACKAGE, self.file("home/salt/mpw"))

    def install(self):
        """Installs the package by KLayout's package manager, from an index of its own."""
        klayout_package.copy_package(self.file("package"))
        mine = self.file("repository.xml", MINE.format(package=self.file("package")))
        return self.klayout("-zz", "-y", "mpw", KLAYOUT_SALT_MINE=f"file://{mine}")

    def ran(self, script, values, *mode, **environment):
        """Runs a script of this folder in KLayout, which is given values and writes what it found. Without a mode KLayout
        shows its windows."""
        given, found = self.file("given.json", json.dumps({**values, "python": os.path.join(PACKAGE, "python")})), self.file("found.json")
        script = ["-r" if mode else "-rm", os.path.join(HERE, script)]
        printed = self.klayout(*mode, "-rd", f"given={given}", "-rd", f"found={found}", *script, **environment)
        self.assertTrue(os.path.exists(found), printed)
        with open(found, encoding="utf-8") as file:
            return json.load(file)


@contextmanager
def display():
    """An X server; the environment with its name."""
    ours, its = os.pipe()
    server = subprocess.Popen(["Xvfb", "-displayfd", str(its), "-screen", "0", "1280x800x24", "-nolisten", "tcp"], pass_fds=[its],
                              stdout=subprocess.DEVNULL, stderr=subprocess.DEVNULL)
    os.close(its)
    try:
        with os.fdopen(ours) as told:
            number = told.readline().strip()
        yield {"DISPLAY": f":{number}", "QT_QPA_PLATFORM": "xcb"}
    finally:
        server.terminate()
        server.wait()
