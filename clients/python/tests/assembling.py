"""mpw-assemble for the tests: as a program in a folder with a store, and as a module."""
import importlib.machinery
import importlib.util
import json
import os
import shutil
import sqlite3
import subprocess
import sys
import tempfile
import unittest
from contextlib import closing

import shuttles
import stored

ASSEMBLE = os.path.join(os.path.dirname(os.path.dirname(os.path.abspath(__file__))), "mpw-assemble")


def assemble_module():
    """mpw-assemble as a module."""
    loader = importlib.machinery.SourceFileLoader("mpw_assemble", ASSEMBLE)
    module = importlib.util.module_from_spec(importlib.util.spec_from_loader("mpw_assemble", loader))
    loader.exec_module(module)
    return module


def keys(run):
    """The keys of a run's markers."""
    return [marker.key.word for marker in run.markers]


class WithFolder(unittest.TestCase):
    """A folder with a program in the place of mpw."""

    def setUp(self):
        self.folder = tempfile.mkdtemp(prefix="mpw-assemble-")
        self.addCleanup(shutil.rmtree, self.folder)
        self.program = self.file("mpw")
        with open(self.program, "w", encoding="ascii") as file:
            file.write(f'#!/bin/sh\nexec {sys.executable} -SB {stored.HERE} "$@"\n')
        os.chmod(self.program, 0o755)
        self.store, self.out = self.file("desk.db"), self.file("wafer.gds")

    def file(self, name):
        return os.path.join(self.folder, name)

    def assemble(self, *words, out=None, store=None):
        """Runs mpw-assemble: its status, what it printed, and what it printed on the standard error."""
        given = [sys.executable, "-SB", ASSEMBLE, "--program", self.program, *words, store or self.store, out or self.out]
        ended = subprocess.run(given, stdout=subprocess.PIPE, stderr=subprocess.PIPE, timeout=60)
        return ended.returncode, ended.stdout.decode(), ended.stderr.decode()

    def manifest(self):
        with open(self.out + ".json", encoding="ascii") as file:
            return json.load(file)

    def library(self):
        with open(self.out, "rb") as file:
            return file.read()


class WithShuttle(WithFolder):
    """A folder for the stores of small shuttles."""

    def record(self, *texts):
        """Writes the store of scripts, one connection each."""
        recorder = stored.Recorder()
        for connection, text in enumerate(texts, 1):
            recorder.serve(text, connection)
        recorder.write(self.store)
        return recorder

    def record_signed(self):
        """The store of the three firms' shuttle with all waivers, and its markers."""
        recorder = stored.Recorder()
        recorder.serve(shuttles.three_firms())
        found = keys(recorder.desk.wafer.run)
        recorder.serve(shuttles.signed(found), 2)
        recorder.write(self.store)
        return found

    def sql(self, *words):
        with closing(sqlite3.connect(self.store)) as store, store:
            store.execute(*words)
