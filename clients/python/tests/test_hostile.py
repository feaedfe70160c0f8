"""The proved program where it is refused what it needs: readers that go, devices that are full or closed, and memory. `bench/memory.py` and `bench/hostile.py` try the
same at every place; here stands what takes a second. The program is MPW_PROGRAM, else the one that the gate built."""
import multiprocessing
import os
import re
import shutil
import subprocess
import sys
import tempfile
import unittest

from stand_in import TOP

sys.path.append(os.path.join(TOP, "bench"))

import hostile  # noqa: E402
import memory  # noqa: E402

SCRIPTS = os.path.join(TOP, "crates", "gate_desk", "data")


def ended(words, **more):
    """What a program printed, its exit status, and what it printed of faults."""
    found = subprocess.run(words, capture_output=True, timeout=60, **more)
    return found.stdout, found.returncode, found.stderr.decode("latin1")


@unittest.skipUnless(os.access(memory.store.MPW, os.X_OK), f"{memory.store.MPW} isn't built")
class Devices(unittest.TestCase):
    def test_a_reader_that_goes(self):
        """As usual tools do not, it doesn't die of a signal: it says so, and ends with 3."""
        self.assertEqual(hostile.closed_pipes(hostile.serve(hostile.session())[0]), 0)

    def test_full_devices(self):
        self.assertEqual(hostile.full_devices(), 0)

    def test_a_store_beside_a_closed_output(self):
        """The replies have no place to go, and don't go into the store."""
        with tempfile.TemporaryDirectory() as folder:
            path = os.path.join(folder, "desk.db")
            words = " ".join(memory.script_words(path))
            script = b"open root abc\nactivate officer\naddrole alpha\n"
            for closed in (">&-", ">&- 2>&-", "<&- >&- 2>&-"):
                ended(["bash", "-c", f"{words} {closed}"], input=script)
            told, status, faults = ended(memory.script_words(path), input=b"open root abc\nactivate officer\naddrole beta\n")
            # Each program whose input was open left the login and the end of its session.
            self.assertEqual((told, status, faults), (b"OK 0\nOK 0\nOK 0\n", 0, f"mpw: {path} has 4 rows and 0 finished runs\n"))


@unittest.skipUnless(os.access(memory.store.MPW, os.X_OK), f"{memory.store.MPW} isn't built")
class Memory(unittest.TestCase):
    def test_limits_of_the_address_space(self):
        """Whatever it may have, replies are the model's, or say that it is out of memory."""
        for size in (8, 16, 24, 32, 64, 128):
            with self.subTest(megabytes=size):
                self.assertNotIn("DIFFERS", memory.try_limit(("large", size << 20)))


@unittest.skipUnless(os.access(os.path.join(memory.CRATES, "gate_desk", "out", "gate_desk"), os.X_OK), "gate_desk isn't built")
@unittest.skipUnless(shutil.which("cc"), "no C compiler makes the library that refuses memory")
class Refusals(unittest.TestCase):
    def test_each_allocation_of_worked_runs(self):
        """Whichever allocation is refused, the desk stays as it was, and answers as written when it is asked once more."""
        with memory.library_of_refusals() as shim, multiprocessing.Pool(len(os.sched_getaffinity(0))) as pool:
            for text, wanted in memory.refused_runs():
                total = memory.allocations_of(shim, text)
                if total == 0:
                    self.skipTest("an unproved program has an allocator of its own")
                found = pool.map(memory.try_refused, [(shim, text, wanted, first) for first in range(1, total + 1)], 8)
                self.assertEqual([it for it in found if it.startswith("DIFFERS")], [], text.decode())
                self.assertGreater(found.count("as ever"), total // 2)


class Secrets(unittest.TestCase):
    def test_the_pair_of_desks(self):
        """Two stored scripts differ in the bytes of one secret cell alone, and all their replies are equal."""
        found = []
        for name in ("secret-narrow", "secret-wide"):
            with open(os.path.join(SCRIPTS, f"{name}.txt"), encoding="ascii") as file:
                found.append(file.read().splitlines())
        places = [place for place, pair in enumerate(zip(*found, strict=True)) if pair[0] != pair[1]]
        self.assertEqual(places, [places[0], places[0] + 1])
        self.assertTrue(all(re.match("> submit alpha TOP", lines[places[0]]) for lines in found))


if __name__ == "__main__":
    unittest.main()
