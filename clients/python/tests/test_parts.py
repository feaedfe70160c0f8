"""Parts of a check that were damaged: a flipped bit, a part that was cut off or joined, and an older one. `mpw stitch` refuses each by its
file's name, and says what to do."""
import os
import random
import shutil
import subprocess
import tempfile
import unittest

from stand_in import TOP

PROGRAM = os.path.join(TOP, "crates", "mpw_firm", "out", "mpw_firm")
FLIPS = 300
DAMAGED, NONE = "the part was changed or cut off: run that part again", "no part, or a changed one: run that part again with 'mpw check --tiles'"
OLDER = "a part of an older mpw: run that part again with this one"


@unittest.skipUnless(os.access(PROGRAM, os.X_OK), f"{PROGRAM} isn't built")
class Damaged(unittest.TestCase):
    @classmethod
    def setUpClass(cls):
        cls.folder = tempfile.mkdtemp(prefix="mpw-parts-")
        cls.addClassCleanup(shutil.rmtree, cls.folder)
        for name in "bars.deck", "two-bars.gds":
            shutil.copy(os.path.join(TOP, "examples", name), cls.folder)
        cls.parts = [cls.run_program("check", "--deck", "bars.deck", "--top", "TOP", "--tiles", f"{share}/2", "two-bars.gds")[1] for share in (1, 2)]

    @classmethod
    def run_program(cls, *words):
        ended = subprocess.run([PROGRAM, *words], cwd=cls.folder, stdin=subprocess.DEVNULL, stdout=subprocess.PIPE, stderr=subprocess.PIPE, timeout=600)
        return ended.returncode, ended.stdout, ended.stderr.decode()

    def stitch(self, text):
        """What is printed of the first part as it is, and a second one with this text."""
        for number, part in enumerate((self.parts[0], text), 1):
            with open(os.path.join(self.folder, f"part.{number}"), "wb") as file:
                file.write(part)
        return self.run_program("stitch", "part.1", "part.2")

    def refused(self, text, sentence, where):
        self.assertEqual(self.stitch(text), (4, b"", f"error: part.2: {sentence}\n"), where)

    def test_whole(self):
        status, printed, _ = self.stitch(self.parts[1])
        self.assertEqual((status, printed), (1, b"OK 2\nw:V:0:0:50:0:600 TOP\ns:V:0:50:90:0:600 TOP\n"))

    def test_digest(self):
        """The last line is what sha256sum prints of all before it."""
        for part in self.parts:
            body = part[:part.rindex(b"sha256 ")]
            summed = subprocess.run(["sha256sum"], input=body, stdout=subprocess.PIPE, check=True).stdout.split()[0]
            self.assertEqual(part, body + b"sha256 " + summed + b"\n")

    def test_flipped_bits(self):
        part, chosen = self.parts[1], random.Random(1)
        self.assertGreater(8 * len(part), FLIPS)
        word = len(b"mpw-part-3 ")
        for bit in sorted(chosen.sample(range(8 * len(part)), FLIPS)):
            text = bytearray(part)
            text[bit // 8] ^= 1 << bit % 8
            if bit // 8 >= word:
                self.refused(text, DAMAGED, bit)

    def test_flipped_bits_of_the_first_word(self):
        """The same of each bit of the word by which a part is known, and of the space after it."""
        part = self.parts[1]
        for bit in range(8 * len(b"mpw-part-3 ")):
            text = bytearray(part)
            text[bit // 8] ^= 1 << bit % 8
            first = bytes(text).split(b"\n")[0].split(b" ")[0]
            sentence = OLDER if first in (b"mpw-part-1", b"mpw-part-2") else NONE
            self.refused(text, sentence, bit)

    def test_cut(self):
        part = self.parts[1]
        word = len(b"mpw-part-3")
        for size in range(len(part)):
            self.refused(part[:size], DAMAGED if size >= word else NONE, size)

    def test_longer(self):
        for more in b"\n", b"\0", b" ", self.parts[0], self.parts[1]:
            self.refused(self.parts[1] + more, DAMAGED, more)

    def test_another_digest(self):
        """The line of one part isn't another's, and neither are other digits of its own."""
        first, second = (part.rindex(b"sha256 ") for part in self.parts)
        part = self.parts[1]
        self.refused(part[:second] + self.parts[0][first:], DAMAGED, "the other part's")
        self.refused(part[:second] + part[second:].upper(), DAMAGED, "capitals")
        self.refused(part[:second] + b"sha256 " + part[second + 7:].upper(), DAMAGED, "capital digits")
        self.refused(part[:second], DAMAGED, "none")

    def test_older(self):
        """A part that ends with a line `end`, as parts did before they had a digest, and one of tiles."""
        body = self.parts[1][:self.parts[1].rindex(b"sha256 ")] + b"end\n"
        for word in b"mpw-part-1", b"mpw-part-2":
            self.refused(body.replace(b"mpw-part-3", word, 1), OLDER, word)


if __name__ == "__main__":
    unittest.main()
