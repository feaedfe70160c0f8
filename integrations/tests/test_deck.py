"""The deck of a DRC script: which lines become rules, and why others don't."""
import unittest

import stand_in  # noqa: F401, which finds the model
from deck import deck_of
from mpw_klayout.deck import MOST_RULES, summary, translated
from mpw_klayout.script import path_of, text_of

SCRIPT = """
# input(9, 9).width(1.um).output("comment")
report("rules", "#{$out}.lyrdb")
m1 = input(1, 0)
via1 = input("11/0")
M1_W = 0.23
m1.width(M1_W.um, projection).output("M1.W : Min. width", "not read: a description")
m1.space(230, projection, transparent).output('M1.S')
m1.separation(via1, 5.nm, projection)
  .output("sep")
m1.enc(source.input(11), projection, 0.03).output "M1.V1"
found = via1.merged.width(2.dbu,
                          projection)
found.output("V.W")
"""


def lines_of(script, unit=1):
    """The rules of a script, without the tile line."""
    return translated(script, unit).deck.splitlines()[1:]


def reasons_of(script, unit=1):
    """The lines that are left out, with their reasons."""
    return {it.line: it.reason for it in translated(script, unit).left_out}


class Rules(unittest.TestCase):
    def test_what_is_read(self):
        made = translated(SCRIPT, 5)
        self.assertEqual(made.deck.splitlines(), [
            "tile 50000", "width M1.W_Min._width 1/0 230", "space M1.S 1/0 1150", "separation sep 1/0 11/0 5",
            "enclosing M1.V1 1/0 11/0 30", "width V.W 11/0 10"])
        self.assertEqual([rule.line for rule in made.rules], [7, 8, 9, 11, 14])
        self.assertEqual((made.left_out, made.notes), ([], []))
        self.assertEqual(len(deck_of(made.deck.encode()).rules), 5)

    def test_units(self):
        for word, nm in (("0.5", 500), ("500.nm", 500), ("1.um", 1000), ("1.5.micron", 1500), ("0.01.mm", 10000), ("1_0.nm", 10),
                         ("2e-2", 20)):
            self.assertEqual(lines_of(f"input(1, 0).width({word}).output('w')"), [f"width w 1/0 {nm}"])

    def test_whole_distances_are_database_units(self):
        script = "input(1, 0).width(20).output('w')"
        self.assertEqual(lines_of(script, 5), ["width w 1/0 100"])
        self.assertIn("no layout is open", reasons_of(script, None)[1])

    def test_names(self):
        self.assertEqual(lines_of("a = input(1,0)\n" + "a.width(1.nm).output('w')\n" * 3 + "a.width(1.nm).output(7, 0)\n"
                                  "a.width(1.nm).output(\"#{x}\")\na.width(1.nm).output('-ü-')\n"),
                         ["width w 1/0 1", "width w_2 1/0 1", "width w_3 1/0 1", "width width_1_0 1/0 1", "width width_1_0_2 1/0 1",
                          "width -_- 1/0 1"])
        long = lines_of(f"input(1,0).width(1.nm).output('{'n' * 300}')")[0].split(" ")[1]
        self.assertLessEqual(len(long), 255)

    def test_most_rules(self):
        script = "a = input(1,0)\n" + "a.width(1.nm).output('w')\n" * (MOST_RULES + 1)
        self.assertEqual(len(lines_of(script)), MOST_RULES)
        self.assertEqual(list(reasons_of(script)), [MOST_RULES + 2])

    def test_lydrc(self):
        text = '<?xml version="1.0" encoding="utf-8"?>\n<klayout-macro><text>input(1, 0).width(1.um &lt;&lt; 0)\n</text></klayout-macro>'
        self.assertEqual(text_of(text.encode()), "input(1, 0).width(1.um << 0)\n")
        self.assertEqual(text_of(b"input(1, 0)\n"), "input(1, 0)\n")

    def test_the_path_of_a_tab(self):
        self.assertEqual(path_of("<html><body><b>DRC (Text)</b> /a/b &amp;.drc</body></html>"), "/a/b &.drc")
        self.assertEqual(path_of("/a/b.lydrc"), "/a/b.lydrc")


class LeftOut(unittest.TestCase):
    def left(self, line, reason, before="m1 = input(1, 0)\nm2 = input(2, 0)\n"):
        """A line after two layers is left out for a reason that has these words."""
        found = reasons_of(f"{before}{line}\n")
        number = before.count("\n") + 1
        self.assertEqual(list(found), [number], line)
        self.assertIn(reason, found[number], line)

    def test_reasons(self):
        for line, reason in (
            ("m1.and(m2).width(0.2).output('a')", "and isn't one of"),
            ("(m1 & m2).width(0.2).output('a')", "isn't read here"),
            ("m3.width(0.2).output('a')", "m3 is no layer"),
            ("m1.notch(0.2).output('a')", "notch isn't one of"),
            ("m1.isolated(0.2).output('a')", "isolated isn't one of"),
            ("m1.drc(width < 0.2).output('a')", "drc isn't one of"),
            ("m1.raw.width(0.2).output('a')", "raw isn't one of"),
            ("m1.width(0.2, projecting(1.um)).output('a')", "no option projecting"),
            ("m1.width(0.2, angle_limit(45)).output('a')", "no option angle_limit"),
            ("m1.width(0.2).polygons.output('a')", "before they are output: .polygons"),
            ("m1.width(0.2)", "isn't output"),
            ("x = m1.width(0.2)", "isn't output"),
            ("m1.output('a')", "is no check"),
            ("m1.separation(m1, 0.2).output('a')", "with itself"),
            ("m1.separation(0.2).output('a')", "2 layers and one distance"),
            ("m1.width(m2, 0.2).output('a')", "1 layer and one distance"),
            ("m1.width.output('a')", "isn't one of"),
            ("m1.width().output('a')", "one distance"),
            ("m1.width(0.2, 0.3).output('a')", "one distance"),
            ("m1.width(2 * 0.1).output('a')", "isn't read here"),
            ("m1.width(0.2305).output('a')", "230.5 nm isn't a whole number"),
            ("m1.width(0.0).output('a')", "isn't a whole number"),
            ("m1.width(66.um).output('a')", "from 1 to 65535"),
            ("input(65536, 0).width(0.2).output('a')", "above 65535"),
            ("input(1, 0, 3).width(0.2).output('a')", "two numbers"),
            ("input('m1').width(0.2).output('a')", "two numbers"),
            ("input(01, 0).width(0.2).output('a')", "isn't read here"),
            ("layout('b.gds').input(1, 0).width(0.2).output('a')", "layout is no layer"),
            ("source.cell('A').input(1, 0).width(0.2).output('a')", ".cell isn't read"),
            ("[m1, m2].each { |l| l.width(0.2).output('a') }", "isn't read here"),
            ("if true then m1.width(0.2).output('a') end", "isn't read here"),
        ):
            self.left(line, reason)

    def test_every_line_is_a_rule_or_left_out(self):
        script = "m1 = input(1, 0)\nm1.width(0.2).output('a'); m1.space(\n0.2).foo(\nbar\n).output('b')\nm1.width(0.3).output('c'\n"
        made = translated(script)
        self.assertEqual([rule.line for rule in made.rules], [2])
        self.assertEqual([it.line for it in made.left_out], [5, 6])


class Variables(unittest.TestCase):
    def test_a_layer_that_is_changed(self):
        for change in ("m1.size(10.nm)", "m1.select_inside(m2)", "m1 += m2", "m1, x = m2, 1", "m1 = m1.sized(10.nm)", "x = m1.raw",
                       "copy.size(10.nm)", "m1 = input(3, 0) if FLAG", "if FLAG\nm1 = input(3, 0)\nend", "def f(m1)\nend",
                       "[1].each do |m1|\nend", "m2 = m1 = input(3, 0)", "m1 ||= m2", "(m1).size(10.nm)", "(m1 = m2).clean",
                       "[m2].each { |m1| foo; bar }", "[m2].each do |m1| foo; bar; end"):
            script = f"m1 = input(1, 0)\ncopy = m1\n{change}\nm1.width(0.2).output('a')\n"
            self.assertEqual(lines_of(script), [], change)
            self.assertIn(script.count("\n"), reasons_of(script))

    def test_a_layer_that_isnt_changed(self):
        for other in ("x = m1.sized(10.nm)", "x = m1 & m2", "m2.size(10.nm)", "m1.clean", "deep"):
            script = f"m1 = input(1, 0)\nm2 = input(2, 0)\n{other}\nm1.width(0.2).output('a')\n"
            self.assertEqual(lines_of(script), ["width a 1/0 200"], other)

    def test_a_name_of_a_block_on_one_line(self):
        for script in "[m2].each { |m1| foo; m1.width(0.2).output('a'); bar }", "[m2].each do |m1| foo; m1.width(0.2).output('a'); bar end":
            self.assertEqual(lines_of(f"m1 = input(1, 0)\n{script}\n"), [], script)

    def test_a_long_text(self):
        script = "m1 = input(1, 0)\nputs <<~END, m1.width(0.1).output('x')\nm1.width(0.2).output('a')\nEND\nm1.width(0.3).output('b')\n"
        self.assertEqual(lines_of(script), ["width b 1/0 300"])
        self.assertEqual(list(reasons_of(script)), [2])

    def test_inside_a_block(self):
        script = "m1 = input(1, 0)\nif FEOL\n  m2 = input(2, 0)\n  m2.width(0.2).output('a')\nelse\n  m2.width(0.2).output('b')\nend\n" \
            "m1.width(0.2).output('c')\n"
        made = translated(script)
        self.assertEqual([rule.name for rule in made.rules], ["a", "c"])
        self.assertEqual([it.line for it in made.left_out], [6])
        self.assertIn("line 4: the script may skip", "\n".join(made.notes))

    def test_remarks(self):
        script = "=begin\n{0}('a')\n=end\n{0}('b')\n__END__\n{0}('c')\n".format("input(1, 0).width(0.2).output")
        self.assertEqual(lines_of(script), ["width b 1/0 200"])
        self.assertEqual(reasons_of(script), {})


class Notes(unittest.TestCase):
    def test_how_a_deck_differs(self):
        made = translated("source('a.gds')\nm1 = input(1, 0)\nm1.width(0.2).output('a')\nm1.width(0.2, square).output('b')\n"
                          "m1.width(0.2, projection).output('c')\n")
        self.assertEqual(len(made.rules), 3)
        corners, limits = made.notes
        self.assertTrue(corners.startswith("lines 3, 4: KLayout measures round corners"), corners)
        self.assertTrue(limits.startswith("line 1: the script chooses"), limits)

    def test_summary(self):
        shown = summary(translated("input(1, 0).width(0.2).output('a')\ninput(1, 0).notch(0.2).output('b')\n"))
        self.assertEqual(shown["text"], "1 rule, 1 line left out")
        self.assertIn("line 2 left out: notch isn't one of", shown["details"])
        self.assertIn("    input(1, 0).notch(0.2).output('b')\n", shown["details"])


if __name__ == "__main__":
    unittest.main()
