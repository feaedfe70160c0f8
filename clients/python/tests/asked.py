"""mpw-ask for the tests, as a program."""
import os
import subprocess
import sys

ASK = os.path.join(os.path.dirname(os.path.dirname(os.path.abspath(__file__))), "mpw-ask")
# Without packages beside the standard library's: the client needs none.
PROGRAM = [sys.executable, "-SB", ASK]


def environment(token=None):
    """The environment of mpw-ask, with a token or without one."""
    found = {name: value for name, value in os.environ.items() if name != "MPW_TOKEN"}
    return found if token is None else {**found, "MPW_TOKEN": token}


def ask(*words, token="abc", given="", **popen):
    """Runs mpw-ask: its status, what it printed, and what it printed on the standard error."""
    ended = subprocess.run(
        [*PROGRAM, *words], input=given.encode("latin1"), stdout=subprocess.PIPE, stderr=subprocess.PIPE,
        env=environment(token), timeout=60, **popen)
    return ended.returncode, ended.stdout.decode(), ended.stderr.decode()
