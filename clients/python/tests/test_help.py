"""What --help of each program says: an example, the exit statuses, and nothing in words that the pages don't use."""
import os
import subprocess
import sys
import unittest

from asked import ASK
from stand_in import TOP

sys.path.append(os.path.join(TOP, "scripts"))

from cited import FORBIDDEN  # noqa: E402

PROGRAMS = "mpw-ask", "mpw-assemble", "mpw-backup", "mpw-page", "mpw-report"


def ended(name, *words):
    """The exit status of a program, what it printed, and what it printed on the standard error."""
    command = [sys.executable, "-SB", os.path.join(os.path.dirname(ASK), name), *words]
    found = subprocess.run(command, stdin=subprocess.DEVNULL, stdout=subprocess.PIPE, stderr=subprocess.PIPE, timeout=60)
    return found.returncode, found.stdout.decode(), found.stderr.decode()


class Help(unittest.TestCase):
    def test_programs(self):
        for name in PROGRAMS:
            with self.subTest(name):
                status, printed, told = ended(name, "--help")
                self.assertEqual((status, told), (0, ""))
                self.assertTrue(printed.startswith(f"usage: {name} "))
                self.assertRegex(printed, rf"\nExamples?:\n\n  {name} |Examples?:\n\n  {name} ")
                self.assertRegex(printed, r"xit status(?:: | is )0 if ")
                self.assertIn("; 2 for a wrong command line", printed.replace("\n", " "))
                self.assertEqual([words.pattern for words, _ in FORBIDDEN if words.search(printed)], [])
                self.assertLess(max(map(len, printed.splitlines())), 140)

    def test_wrong_command_lines(self):
        """Each says what is wrong, in one line after the usage, and ends with 2."""
        for name in PROGRAMS:
            with self.subTest(name):
                status, printed, told = ended(name, "--nothing")
                self.assertEqual((status, printed), (2, ""))
                self.assertIn(f"{name}: error: ", told)


if __name__ == "__main__":
    unittest.main()
