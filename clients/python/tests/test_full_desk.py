"""A service over a store whose desk has answered all its calls: it goes on from its store, in the same process and at the same address."""
import json
import os
import tempfile
import threading
import time
import unittest
from contextlib import suppress

from mpw_desk import Lost, Refused
from test_serve import LIMIT, MPW, Served, ask_until_the_end, service


def desk_of(served):
    """A connection with a session, as soon as the service takes one."""
    begun = time.monotonic()
    while True:
        with suppress(OSError, Lost, Refused):
            return served.desk()
        if time.monotonic() - begun > LIMIT:
            raise AssertionError("the service takes no session")
        time.sleep(0.1)


@unittest.skipUnless(os.access(MPW, os.X_OK), f"{MPW} isn't built")
class Full(Served):
    def test_goes_on_from_its_store(self):
        with tempfile.TemporaryDirectory(prefix="mpw-full-") as folder:
            store, log = os.path.join(folder, "desk.db"), os.path.join(folder, "desk.log")
            with service(16, 1, "--ongoing", "--store", store, "--log", log) as served:
                with served.desk() as desk:
                    desk.addrole("before")
                asking = [threading.Thread(target=ask_until_the_end, args=(served,)) for _ in range(15)]
                for thread in asking:
                    thread.start()
                for thread in asking:
                    thread.join()
                with desk_of(served) as desk:
                    desk.addrole("after")
                    self.assertEqual(desk.tell("addrole before").text, "REFUSED 33 known\n")
                self.assertIsNone(served.process.poll())
                with open(log, encoding="ascii") as file:
                    events = [json.loads(line)["event"] for line in file if '"reopen"' in line]
                self.assertEqual(events, ["reopen"])
                served.process.kill()
                self.assertEqual(served.end()[1], f"calls {2**20}\n")


if __name__ == "__main__":
    unittest.main()
