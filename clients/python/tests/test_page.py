"""The page: what is put into the template, and what a browser makes of it."""
import base64
import hashlib
import html.parser
import json
import os
import re
import shutil
import tempfile
import unittest

import layouts
from browser import Browser, installed
from mpw_desk import Desk
from mpw_page import DATA, TEMPLATE, data_of, json_text, page_of
from stand_in import OFFICER, TOKEN, StandIn, listening

HOSTILE = "</script><img/src=x/onerror=alert(1)>&amp;<!--'\"\\"
VIEW = "byId('stage').dataset.view.split(' ').map(Number)"
KEY = "w:V:0:0:10:0:100"


def data(**more):
    """The data of a small page: a boundary, a path, two rules with three markers, and masked ones."""
    found = {
        "made": "", "user": HOSTILE, "status": "finished 2",
        "deck": ["tile 256", "width w 1/0 11", "space s 1/0 9", "width other 5/0 7"],
        "placements": [f"{HOSTILE} {HOSTILE} R0 0 0"], "cells": [f"{HOSTILE} 1 ann"],
        "shapes": [[HOSTILE, [
            f"{HOSTILE} 1 1/0 boundary 0 0 0 100 10 100 10 0", "pad 3 13/0 path 20 5 -10 0 300 200 300 200 500"]]],
        "markers": [
            f"{KEY} {HOSTILE} pad", "w:H:0:290:310:0:200 pad", f"{HOSTILE}:V:1:10:10:-50:400 pad", "masked s 3"],
        "waivers": [f"{KEY} signed ann {HOSTILE}", "w:H:0:290:310:0:200 asked ann"]}
    return {**found, **more}


class DataBlock(html.parser.HTMLParser):
    """The text of the element that has the data."""

    def __init__(self):
        super().__init__()
        self.is_inside, self.text, self.elements = False, "", []

    def handle_starttag(self, tag, attributes):
        self.elements.append(tag)
        self.is_inside = ("id", "data") in attributes

    def handle_endtag(self, tag):
        self.is_inside = False

    def handle_data(self, text):
        if self.is_inside:
            self.text += text


class Filled(unittest.TestCase):
    def test_template(self):
        with open(TEMPLATE, encoding="utf-8") as file:
            text = file.read()
        self.assertEqual(text.count(DATA), 1)
        (script,) = re.findall(r"<script>(.*?)</script>", text, re.DOTALL)
        sum_of_script = base64.b64encode(hashlib.sha256(script.encode()).digest()).decode()
        (told,) = re.findall("script-src 'sha256-(.*?)'", text)
        self.assertEqual(told, sum_of_script, "the script was changed: the second is its sum now")
        self.assertIsNone(re.search(r"https?:|//[a-z]+\.|@import|url\(", text), "nothing is loaded from elsewhere")
        self.assertIsNone(re.search(r"innerHTML|outerHTML|insertAdjacentHTML|document\.write|eval\(", text))

    def test_hostile_names(self):
        text = json_text(data())
        self.assertIsNone(re.search("[<>&]", text))
        self.assertEqual(json.loads(text), data())
        parser = DataBlock()
        parser.feed(page_of(data()))
        self.assertEqual(json.loads(parser.text), data())
        self.assertNotIn("img", parser.elements)

    def test_what_a_session_sees(self):
        with listening(StandIn().serve) as port, Desk.connect("127.0.0.1", port) as desk:
            desk.open(OFFICER, TOKEN)
            desk.activate("officer")
            for operation in "submit", "read", "place":
                desk.grant(operation, "pad", "officer")
            for operation in "deck", "run", "waive":
                desk.grant(operation, "desk", "officer")
            desk.submit("pad", "PAD", layouts.pad())
            self.assertEqual(data_of(desk)["markers"], [])
            desk.place("pad", "p", "R0", 0, 0)
            desk.deck("tile 256\nwidth w 1/0 11\n")
            desk.run()
            desk.waive(KEY)
            self.assertEqual(data_of(desk, ["pad p R0 0 0", "other q R0 0 0"], "tile 256\nwidth w 1/0 11\n", "now"), {
                "made": "now", "user": "root", "status": "finished 1", "deck": ["tile 256", "width w 1/0 11"],
                "placements": ["pad p R0 0 0", "other q R0 0 0"], "cells": ["pad 1 root"],
                "shapes": [["pad", [
                    "pad 1 1/0 boundary 0 0 10 0 10 100 0 100", "pad 1 7/0 path 20 5 -10 0 300 200 300 200 500"]]],
                "markers": [f"{KEY} pad"], "waivers": [f"{KEY} asked root"]})


@unittest.skipUnless(installed(), "no browser is installed: apt-get install chromium")
class InBrowser(unittest.TestCase):
    @classmethod
    def setUpClass(cls):
        cls.folder = tempfile.mkdtemp()
        cls.browser = Browser()

    @classmethod
    def tearDownClass(cls):
        cls.browser.__exit__()
        shutil.rmtree(cls.folder)

    def show(self, shown, seconds=30, address=""):
        """Opens a page, which has to load nothing and to have no error."""
        path = os.path.join(self.folder, "page.html")
        with open(path, "w", encoding="ascii") as file:
            file.write(page_of(shown))
        self.browser.show(path + address, seconds)
        self.is_calm()

    def is_calm(self):
        told = [it for it in self.browser.console if it["method"] != "Network.requestWillBeSent"]
        self.assertEqual(told, [])
        self.assertEqual([it["params"]["request"]["url"][:8] for it in self.browser.console], ["file:///"])

    def text(self, selector):
        return self.browser.run(f"[...document.querySelectorAll({json.dumps(selector)})].map(it => it.textContent)")

    def view(self):
        return list(map(float, self.browser.run("byId('stage').dataset.view").split(" ")))

    def settled_view(self):
        """The view once it moves no longer."""
        self.browser.until(
            "new Promise(done => {const before = byId('stage').dataset.view;"
            " setTimeout(() => done(byId('stage').dataset.view === before), 400)})")
        return self.view()

    def test_list(self):
        self.show(data())
        self.assertEqual(self.text(".marker .mono"), ["V:0:0:10:0:100", "H:0:290:310:0:200", "V:1:10:10:-50:400"])
        self.assertEqual(self.text(".marker .cells"), [f"{HOSTILE} \u00b7 pad", "pad", "pad"])
        self.assertEqual(self.text(".marker .state"), [f"signed {HOSTILE}", "asked ann", "no waiver"])
        self.assertEqual(self.text(".rule .name"), ["w", "s", HOSTILE, "1 rule without a marker"])
        self.assertEqual(self.text(".rule .count"), ["2", "3 masked", "1"])
        self.assertEqual(self.text("#figures b"), ["3", "3", "2", "3"])
        self.assertEqual(self.text("#layers .switch .mono"), ["1/0", "13/0"])
        self.assertEqual(self.text("#placements .placement div"), [f"{HOSTILE} \u00b7 {HOSTILE}"])
        self.assertEqual(self.text("img"), [])
        colours = self.browser.run(
            "[...document.querySelectorAll('.rule .swatch')].map(it => it.style.getPropertyValue('--colour'))")
        self.assertEqual(len(set(colours)), 3)

    def test_click_on_a_row_shows_its_marker(self):
        self.show(data())
        before = self.view()
        self.browser.run("document.querySelectorAll('.marker')[1].click()")
        x, y, scale = self.settled_view()
        self.assertEqual((x, y), (100, 300))
        self.assertGreater(scale, before[2])
        self.assertEqual(self.text("#details dd")[1:3], ["20 nm", "y = 290 and 310"])
        self.assertEqual(self.browser.run("byId('details').dataset.key"), "w:H:0:290:310:0:200")
        self.browser.key("j")
        self.assertEqual(self.settled_view()[:2], [10, 175])
        self.browser.key("f")
        self.assertEqual(self.settled_view(), before)
        self.is_calm()

    def test_click_on_a_marker_selects_it(self):
        self.show(data())
        self.browser.click(*self.browser.run(
            f"(() => {{const box = byId('stage').getBoundingClientRect(), [x, y, scale] = {VIEW};"
            " return [box.left + box.width / 2 + (100 - x) * scale,"
            " box.top + box.height / 2 - (300 - y) * scale];})()"))
        self.assertEqual(self.text(".marker.selected .mono"), ["H:0:290:310:0:200"])
        self.assertIn("13/0 pad", self.text("#under")[0])
        self.assertRegex(self.text("#at")[0], r"x (99|100|101)  y (299|300|301) nm")
        self.browser.key("Escape")
        self.assertEqual(self.text(".marker.selected"), [])
        self.is_calm()

    def test_mouse_and_keys_move_the_view(self):
        self.show(data())
        x, y, scale = self.view()
        left, top, width, height = self.browser.run(
            "(({left, top, width, height}) => [left, top, width, height])(byId('stage').getBoundingClientRect())")
        middle, corner = (left + width / 2, top + height / 2), (left + width / 4, top + height / 4)
        self.browser.drag(*middle, middle[0] + 30, middle[1] - 20)
        for found, wanted in zip(self.settled_view(), (x - 30 / scale, y - 20 / scale, scale)):
            self.assertAlmostEqual(found, wanted, 6)
        self.browser.key("f")
        self.assertEqual(self.settled_view(), [x, y, scale])
        self.browser.wheel(*corner, -100)
        after = self.settled_view()
        self.assertGreater(after[2], scale)
        self.assertAlmostEqual(after[0] - width / 4 / after[2], x - width / 4 / scale, delta=1 / scale)
        self.assertAlmostEqual(after[1] + height / 4 / after[2], y + height / 4 / scale, delta=1 / scale)
        for key, moved in ("ArrowRight", (1, 0)), ("ArrowUp", (0, 1)), ("+", (0, 0)), ("-", (0, 0)):
            before = self.settled_view()
            self.browser.key(key)
            self.browser.until(f"byId('stage').dataset.view !== {json.dumps(' '.join(map(str, before)))}")
            after = self.settled_view()
            self.assertEqual([(one > other) - (one < other) for one, other in zip(after, before)][:2], list(moved))
        self.is_calm()

    def test_search_and_switches(self):
        self.show(data())
        search = "byId('search').value = %s; byId('search').dispatchEvent(new Event('input'))"
        self.browser.run(search % json.dumps("PAD h:0"))
        self.assertEqual((self.text(".marker .mono"), self.text("#found")), (["H:0:290:310:0:200"], ["1 of 3 markers"]))
        self.browser.run(search % json.dumps("nothing"))
        self.assertEqual(self.text("#list .empty"), ["No marker has all of these words."])
        self.browser.run(search % '""')
        self.browser.run("byId('state').value = 'signed'; byId('state').dispatchEvent(new Event('change'))")
        self.assertEqual(self.text(".marker .mono"), ["V:0:0:10:0:100"])
        self.browser.run("document.querySelector('#layers .switch').click()")
        self.assertEqual(self.text("#layers .off .mono"), ["1/0"])
        self.browser.until("byId('stage').dataset.drawn === '2'")
        self.browser.run("document.querySelector('.rule .eye').click()")
        self.assertEqual(self.text(".rule.off .name"), ["w"])
        self.is_calm()

    def test_themes(self):
        seen = set()
        for scheme in "dark", "light":
            self.browser.ask("Emulation.setEmulatedMedia", features=[{"name": "prefers-color-scheme", "value": scheme}])
            self.show(data())
            self.assertEqual(self.browser.run("document.documentElement.dataset.theme"), scheme)
            seen.add(self.browser.run("getComputedStyle(document.body).backgroundColor"))
        self.assertEqual(len(seen), 2)
        self.browser.key("t")
        self.assertEqual(self.browser.run("document.documentElement.dataset.theme"), "dark")
        self.browser.run("localStorage.clear()")

    def test_address_names_a_marker(self):
        self.show(data(), address="#w:H:0:290:310:0:200")
        self.assertEqual(self.settled_view()[:2], [100, 300])

    def test_no_run_and_nothing_to_see(self):
        self.show(data(status="checking 2 1 4", markers=[], waivers=[], deck=[]))
        self.assertEqual(self.text("#list .empty"), ["Markers are shown when a run is finished."])
        self.show(data(markers=[], waivers=[], shapes=[], cells=[], placements=[], deck=[]))
        self.assertEqual(self.text("#missing"), ["This session sees no shapes and no markers."])

    def test_page_of_a_check(self):
        """It says nothing of sessions, runs, waivers and masked markers."""
        words = re.compile("run|waive|sign|mask|session|desk|sees", re.I)
        for more in {}, {"markers": []}, {"markers": [], "shapes": [], "cells": []}:
            self.show(data(**{"check": "TOP", "waivers": [], "user": "mpw check", "markers": [f"{KEY} TOP", "w:H:0:290:310:0:200 TOP"], **more}))
            if not more:
                self.browser.key("j")
            self.assertIn("Check of TOP", self.text("#run"))
            self.assertEqual(words.findall(self.browser.run("document.body.innerText + document.title")), [])
        self.show(data())
        self.assertTrue(words.search(self.browser.run("document.body.innerText")))

    def test_left_out_elements(self):
        """A list of them, and where one lies in the structure that is checked, if that is known."""
        lines = ["notmanhattan at byte 412 in ARM, layer 63/0, at 300,40, in TOP at 20300,40", "oddwidth at byte 9 in TOP, layer 1/0, at -100,50",
                 f"mag at byte 7 in {HOSTILE}, at 5,6", "notmanhattan at byte 900 in ARM, layer 63/0, at 300,40"]
        self.show(data(check="TOP", user="mpw check", waivers=[], markers=[f"{KEY} TOP"], left=lines))
        self.assertEqual(self.text("#left button"), lines)
        self.assertEqual(self.browser.run("[...document.querySelectorAll('#left button')].map(it => it.disabled)"), [False, False, True, True])
        self.assertEqual(self.text("#figures li")[-1], "4 left out for faults")
        for place, point in (0, [20300, 40]), (1, [-100, 50]):
            self.browser.run(f"document.querySelectorAll('#left button')[{place}].click()")
            self.assertEqual(self.settled_view()[:2], point)
        self.assertEqual(self.text("img"), [])
        self.is_calm()
        self.show(data(check="TOP", waivers=[], markers=[f"{KEY} TOP"]))
        self.assertTrue(self.browser.run("byId('left').hidden"))

    def test_without_placements(self):
        chip = ["chip 1 1/0 boundary 0 0 9 0 9 9 0 9", "pad 1 1/0 boundary 20 0 29 0 29 9 20 9"]
        self.show(data(placements=[], shapes=[["chip", chip], ["pad", ["pad 1 1/0 boundary 0 0 9 0 9 9 0 9"]]]))
        self.assertFalse(self.browser.run("byId('unplaced').hidden"))
        self.assertEqual(self.text("#placements .off .placement div"), ["pad"])
        self.assertEqual(self.browser.run("byId('stage').dataset.drawn"), "2")

    def test_pixels(self):
        """The hole to which a slit leads stays open, and a path has its lengthenings; a placement turns both."""
        ring = "c 1 1/0 boundary 0 0 400 0 400 400 0 400 0 100 100 100 100 300 300 300 300 100 100 100 0 100"
        path = "c 1 2/0 path 20 30 -40 600 0 700 0"
        shapes = [["c", [ring, path]]]
        self.show(data(placements=["c p R90 0 0"], cells=["c 1 ann"], shapes=shapes, markers=[], waivers=[]))
        script = (
            f"(points => {{const [x, y, scale] = {VIEW}, canvas = byId('shapes'), pen = canvas.getContext('2d');"
            " const pixel = (px, py) => pen.getImageData("
            "(px - x) * scale + canvas.width / 2 | 0, (y - py) * scale + canvas.height / 2 | 0, 1, 1);"
            " return points.map(point => [...pixel(...point).data].join())})")
        inside, hole, outside, begin, end, gap = self.browser.run(
            f"({script})([[-50, 205], [-205, 195], [-205, -77], [3, 580], [3, 655], [3, 667]])")
        self.assertEqual(hole, outside)
        self.assertEqual(end, begin)
        self.assertEqual(gap, outside)
        self.assertNotEqual(inside, outside)
        self.assertNotEqual(begin, outside)

    def test_many_shapes(self):
        """10^5 shapes and 10^4 markers: loaded, drawn, moved over and searched without a long stop."""
        side, lines, markers = 320, [], []
        for at in range(side * side):
            x, y = at % side * 200, at // side * 200
            lines.append(f"c 1 {at % 7 + 1}/0 boundary {x} {y} {x + 120} {y} {x + 120} {y + 90} {x} {y + 90}")
            if at % 10 == 0:
                markers.append(f"rule{at % 130 // 10}:V:0:{x}:{x + 40}:{y}:{y + 90} c")
        shown = data(placements=["c p R0 0 0"], cells=["c 1 ann"], shapes=[["c", lines]], markers=markers, waivers=[])
        self.show({**shown, "deck": []}, 60)
        self.assertEqual(self.browser.run("byId('list').dataset.found"), str(len(markers)))
        self.assertEqual(self.browser.run("byId('stage').dataset.drawn"), str(side * side))
        self.assertLess(int(self.browser.run("byId('stage').dataset.milliseconds")), 10000)
        self.assertLess(self.browser.run("document.querySelectorAll('.row').length"), 60)
        self.browser.run("byId('search').value = 'rule7:'; byId('search').dispatchEvent(new Event('input'))")
        self.browser.run("document.querySelectorAll('.marker')[3].click()")
        self.settled_view()
        self.browser.until("Number(byId('stage').dataset.drawn) < 2000")
        self.is_calm()


if __name__ == "__main__":
    unittest.main()
