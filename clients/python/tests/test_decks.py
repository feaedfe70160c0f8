"""Decks as people write them: comments, CRLF and units are resolved before a deck is sent, and nothing else."""
import glob
import os
import subprocess
import unittest

from asked import ask
from mpw_desk import BadDeck, Desk, Refused, deck_bytes, deck_text, plain_deck
from stand_in import OFFICER, TOKEN, TOP, StandIn, listening
from test_ask import WithDesk, WithFiles

from deck import deck_of as model_deck
from replies import Refused as ModelRefused

WRITTEN = b"""# The rules of the shuttle.\r
\r
tile 4um    # the side of the tiles\r
\t # indented
width w 1/0 56nm\t# 56 nm
space # 1/0 0.051um# no comment
separation a#b 1/0 2/0 5.0nm #
enclosing e 1/0 2/0 65.535um \t
"""
PLAIN = b"""tile 4000
width w 1/0 56
space # 1/0 0.051um# no comment
separation a#b 1/0 2/0 5
enclosing e 1/0 2/0 65535
"""


class Plain(unittest.TestCase):
    def test_written(self):
        found = plain_deck(WRITTEN)
        self.assertEqual((found.text, found.lines), (PLAIN, [3, 5, 6, 7, 8]))
        self.assertEqual([found.line_of(line) for line in (0, 1, 3, 5, 6)], [None, 3, 6, 8, None])

    def test_accepted_decks_stay(self):
        """To the byte, whether or not they end with a line feed."""
        texts = [b"tile 256", b"tile 256\nwidth # 1/0 1", b"tile 256\nwidth nm 0/0 1\nspace 1um 0/0 1\n", b"tile 256\nwidth a#b 1/0 9\n"]
        for path in glob.glob(os.path.join(TOP, "examples", "*.deck")) + glob.glob(os.path.join(TOP, "examples", "*", "*.deck")):
            with open(path, "rb") as file:
                texts.append(file.read())
        self.assertGreater(len(texts), 8)
        for text in texts:
            self.assertEqual(plain_deck(text).text, text)

    def test_other_faults_stay(self):
        """The desk refuses what isn't a comment, a CRLF or a unit: each of these lines comes to it as it is."""
        for line in (
                b"width w 1/0", b"width # a name", b"width w # 1/0 56", b" width w 1/0 56", b"width w  1/0 56", b"width w 1/0 0.5",
                b"width w 1/0 .5um", b"width w 1/0 5um#", b"width w 1/0 5 um", b"width w 1/0 5mm", b"width w 1/0 -5nm", b"area w 1/0 5nm # no rule",
                b"width w 1/0 5\rnm", b"width w 1/0 \xff"):
            text = b"tile 256\n" + line + b"\n"
            self.assertEqual(plain_deck(text).text, text)
            with self.assertRaises(ModelRefused):
                model_deck(text)

    def test_lengths(self):
        for word, nm in (b"0.5um", b"500"), (b"500nm", b"500"), (b"1.000nm", b"1"), (b"00.05600um", b"56"), (b"65um", b"65000"), (b"0nm", b"0"):
            self.assertEqual(plain_deck(b"width w 1/0 " + word).text, b"width w 1/0 " + nm)
        for word in b"0.5nm", b"0.0005um", b"1.00001um", b"0.000000000001um":
            with self.assertRaises(BadDeck) as caught:
                plain_deck(b"tile 256\n# a comment\nwidth w 1/0 " + word + b"\n")
            self.assertEqual(
                str(caught.exception), f"line 3: {word.decode()} is no whole number of nm: write one, as 56, 56nm or 0.056um")

    def test_empty(self):
        for text in b"", b"\n\r\n", b"# tile 256", b" \t# tile 256\r\n":
            self.assertEqual(plain_deck(text), (b"", []))

    def test_too_long(self):
        """A deck that is too long isn't cut at a comment."""
        self.assertRaises(BadDeck, deck_bytes, b"tile 256\n" + b"#" * (1 << 24))


class Sent(WithFiles):
    def test_by_a_program(self):
        with listening(StandIn().serve) as port, Desk.connect("127.0.0.1", port) as desk:
            desk.open(OFFICER, TOKEN)
            desk.activate("officer")
            desk.grant("deck", "desk", "officer")
            desk.deck(WRITTEN.replace(b"# no comment", b"").replace(b"um#", b"um"))
            with self.assertRaises(Refused) as caught:
                desk.deck("# one\ntile 256\n\nwidth w 1/0\n")
            self.assertEqual((caught.exception.rest, caught.exception.line), ("2", 4))
            self.assertEqual(str(caught.exception), "REFUSED 51 word 2: line 4 of the deck")
            with self.assertRaises(Refused) as caught:
                desk.deck(b"tile 256\nwidth w 1/0\n")
            self.assertEqual((caught.exception.line, str(caught.exception)), (2, "REFUSED 51 word 2"))
            with self.assertRaises(Refused) as caught:
                desk.deck(b"# nothing\n")
            self.assertEqual((caught.exception.rest, caught.exception.line), ("1", None))
            self.assertRaises(BadDeck, desk.deck, "tile 256\nwidth w 1/0 0.1nm\n")

    def write(self, text):
        with open(self.file("rules.deck"), "wb") as file:
            file.write(text)

    def test_printed(self):
        """mpw-ask --plain-deck, of a file and of the standard input."""
        self.write(WRITTEN)
        for words in ["--plain-deck", "rules.deck"], ["--plain-deck=rules.deck"]:
            self.assertEqual(ask(*words, cwd=self.folder), (0, PLAIN.decode(), ""))
        self.assertEqual(ask("--plain-deck", "-", given=WRITTEN.decode()), (0, PLAIN.decode(), ""))
        self.write(PLAIN)
        self.assertEqual(ask("--plain-deck", "rules.deck", cwd=self.folder), (0, PLAIN.decode(), ""))

    def test_pipe(self):
        """The lines of docs/deck.md, with a stand-in for mpw check."""
        with open(os.path.join(TOP, "docs", "deck.md"), encoding="utf-8") as page:
            text = page.read()
        self.write(text.split("\nThe client and `mpw check` also take a deck like this one:\n\n```text\n")[1].split("```")[0].encode())
        lines = text.split("\n```sh\nclients/")[1].split("```")[0]
        os.symlink(os.path.join(TOP, "clients"), self.file("clients"))
        with open(self.file("mpw"), "w", encoding="ascii") as file:
            file.write('#!/bin/sh\necho "$*"; exec cat\n')
        os.chmod(self.file("mpw"), 0o755)
        ended = subprocess.run(["sh", "-ec", f"clients/{lines}"], cwd=self.folder, stdout=subprocess.PIPE, check=True, timeout=60)
        plain = b"tile 4096\nwidth m1.width 1/0 100\nspace m1.space 1/0 120\n"
        self.assertEqual(ended.stdout, b"check --deck - --top TOP cell.gds\n" + plain)
        with open(self.file("plain.deck"), "rb") as file:
            self.assertEqual(file.read(), plain)

    def test_not_printed(self):
        self.write(b"# rules\r\ntile 256.5nm")
        told = "mpw-ask: rules.deck: line 2: 256.5nm is no whole number of nm: write one, as 56, 56nm or 0.056um\n"
        self.assertEqual(ask("--plain-deck", "rules.deck", cwd=self.folder), (4, "", told))
        self.assertEqual(ask("--plain-deck", "none.deck", cwd=self.folder), (4, "", "mpw-ask: none.deck: No such file or directory\n"))
        for words in [], ["rules.deck", "whoami"], ["rules.deck", "--wait"], ["rules.deck", "--log-summary", "a.log"]:
            self.assertEqual(ask("--plain-deck", *words, cwd=self.folder)[:2], (2, ""), words)

    def test_text(self):
        with open(self.file("rules.deck"), "wb") as file:
            file.write("# 56 \u00b5m\ntile 256\r\n".encode())
        self.assertEqual(deck_text(self.file("rules.deck")), "tile 256\n")


class Asked(WithDesk):
    def test_by_mpw_ask(self):
        self.grant_all()
        with open(self.file("rules.deck"), "wb") as file:
            file.write(b"# rules\r\ntile 256 # nm\r\nwidth w 1/0 0.011um\r\n")
        lines = ["submit pad PAD @pad.gds", "deck @rules.deck", "place pad p R0 0 0", "run", "markers"]
        status, printed, told = self.ask("--wait", *lines, "--deck", "rules.deck", "--report", "out.lyrdb", cwd=self.folder)
        self.assertEqual((status, told), (0, ""))
        self.assertTrue(printed.endswith("OK 1\nw:V:0:0:10:0:100 pad\n"))
        self.assertIn("<description>width w 1/0 11</description>", self.read("out.lyrdb"))

    def test_faults(self):
        self.grant_all()
        with open(self.file("rules.deck"), "wb") as file:
            file.write(b"# rules\ntile 256\n\nwidth w\n")
        told = "mpw-ask: deck @rules.deck: REFUSED 51 word 2: line 4 of rules.deck\n"
        self.assertEqual(self.ask("deck @rules.deck", cwd=self.folder), (1, "REFUSED 51 word 2\n", told))
        with open(self.file("rules.deck"), "wb") as file:
            file.write(b"# rules\ntile 256\n\nwidth w 1/0 0.5nm\n")
        told = "mpw-ask: rules.deck: line 4: 0.5nm is no whole number of nm: write one, as 56, 56nm or 0.056um\n"
        self.assertEqual(self.ask("deck @rules.deck", cwd=self.folder), (4, "", told))


if __name__ == "__main__":
    unittest.main()
