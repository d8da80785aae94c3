"""The page: what is in it, and what it does in a real browser."""

import os
import re
import tempfile
import unittest
from html.parser import HTMLParser

from desk.explain.page import Recording, page
from desk.explain.picture import Picture
from desk.explain.telling import Telling
from desk.explain.timeline import Timeline
from desk.log import lines
from tests.explain.browser import CHROMIUM, MISSING, Browser
from tests.explain.room import EXAMPLES, HOME, read
from tests.explain.runs import run_of
from tests.explain.test_explain import output_of

VOID = ("meta", "input")  # elements that have no end
COLUMN_MIDDLE = """(line => {
    const strip = picture.querySelector(`.strip[data-lines~="${line}"]`), calls = strip.querySelector(".calls");
    strip.scrollIntoView();
    const box = calls.getBoundingClientRect(), all = strip.dataset.lines.split(" ");
    return [box.x + (all.indexOf(line) + .5) * box.width / all.length, box.y + box.height / 2];
})"""
ROW_MIDDLE = """(line => {
    const row = document.getElementById("line-" + line);
    row.scrollIntoView({ block: "center" });
    const box = row.getBoundingClientRect();
    return [box.x + box.width / 2, box.y + box.height / 2];
})"""
FRAMED = """[...document.querySelectorAll("rect.marked")].map(rect => {
    const strip = rect.closest(".strip"), calls = strip.querySelector(".calls"), all = strip.dataset.lines.split(" ");
    const part = name => Number(rect.getAttribute(name)), left = Number(calls.getAttribute("x"));
    return all[Math.round((part("x") - left) / part("width"))];
})"""


def page_of(log, name="some.log"):
    """The page of a log."""
    timeline = Timeline()
    recording = Recording(Telling(timeline))
    for line in lines.follow(log, output_of(log)):
        recording.tell(line)
    return "".join(page(recording, Picture(timeline, name)))


class Reader(HTMLParser):
    """The elements of a page, each ended in its turn, and their ids."""

    def __init__(self):
        super().__init__()
        self.open, self.ids, self.names = [], [], []

    def handle_starttag(self, tag, attrs):
        self.ids += [value for name, value in attrs if name == "id"]
        self.names += [(tag, name) for name, _ in attrs]
        if tag not in VOID:
            self.open.append(tag)

    def handle_startendtag(self, tag, attrs):
        self.names += [(tag, name) for name, _ in attrs]

    def handle_endtag(self, tag):
        assert self.open.pop() == tag, tag


class ContentTest(unittest.TestCase):
    """What is in the page."""

    def test_well_formed_and_alone(self):
        for path in EXAMPLES:
            log = read(path)
            if "refused-layout" in path:
                continue
            made, reader = page_of(log, os.path.basename(path)), Reader()
            with self.subTest(log=path):
                reader.feed(made)
                self.assertEqual((reader.open, len(reader.ids)), ([], len(set(reader.ids))))
                self.assertFalse({name for _, name in reader.names} & {"src", "href", "xlink:href", "action", "onclick"})
                self.assertNotIn("@import", made)
                self.assertEqual(made.count("<li "), len(lines.cut(log)))
                self.assertIn(f"<title>{os.path.basename(path)}: a run of", made)

    def test_the_log_cannot_write_markup(self):
        name = "<b>&.log"
        made = page_of(b"0000050001" + b"3C2F693E0000" + b"0000\n" + b"06000100000000000000000000\n<script>\n", name)
        self.assertIn("<h1>&lt;b&gt;&amp;.log: a run of 1 call</h1>", made)
        self.assertEqual(made.count("<script>"), 1)

    def test_summary(self):
        made = page_of(read(os.path.join(HOME, "examples", "ring.log")))
        self.assertIn("<dt>Lines</dt>\n<dd>4 layout lines, 16 calls.</dd>", made)
        self.assertIn("<dt>Refused</dt>\n<dd>1 of 16 calls:</dd>\n<dd>2, no process runs that could make the call: once, in line 20.</dd>", made)
        self.assertIn("<dt>Running</dt>\n<dd>Nobody runs.</dd>", made)
        self.assertIn("a ring: only a stop or a clean of one of them ends it.", made)


@unittest.skipUnless(CHROMIUM, MISSING)
class BrowserTest(unittest.TestCase):
    """What the page does: the worked run, and runs of 40 and of 2,000 calls."""

    @classmethod
    def setUpClass(cls):
        cls.folder = tempfile.TemporaryDirectory()
        cls.addClassCleanup(cls.folder.cleanup)
        cls.browser = Browser().__enter__()
        cls.addClassCleanup(cls.browser.__exit__)

    def load(self, log):
        """Opens the page of a log."""
        path = os.path.join(self.folder.name, "page.html")
        with open(path, "w", encoding="utf-8") as file:
            file.write(page_of(log))
        self.browser.open(path)

    def marked(self):
        """The lines marked in the log, and those framed in the picture."""
        rows = self.browser.value('[...document.querySelectorAll("li.marked")].map(row => row.dataset.line)')
        return rows, self.browser.value(FRAMED)

    def shown(self):
        """The lines of the log that are shown."""
        return [int(line) for line in self.browser.value("rows.filter(row => row.offsetHeight > 0).map(row => row.dataset.line)")]

    def click(self, where, line):
        self.browser.click(*self.browser.value(f'{where}("{line}")'))

    def test_a_click_marks_both_ways(self):
        self.load(read(os.path.join(HOME, "examples", "worked.log")))
        self.assertEqual(self.marked(), ([], []))
        self.click(COLUMN_MIDDLE, 6)
        self.assertEqual(self.marked(), (["6"], ["6"]))
        self.click(ROW_MIDDLE, 8)
        self.assertEqual(self.marked(), (["8"], ["8"]))
        self.click(ROW_MIDDLE, 1)
        self.assertEqual(self.marked(), (["1"], []))

    def test_nothing_fails_and_nothing_is_fetched(self):
        self.load(run_of(40, 5))
        self.click(COLUMN_MIDDLE, 20)
        self.assertEqual(self.browser.value("document.title"), "some.log: a run of 40 calls")
        fetched = [event["params"]["request"]["url"] for event in self.browser.events if event.get("method") == "Network.requestWillBeSent"]
        self.assertEqual([url.split(":")[0] for url in fetched], ["file"])
        self.assertFalse([event for event in self.browser.events if event.get("method") in ("Runtime.exceptionThrown", "Log.entryAdded")])

    def test_filters(self):
        log = run_of(40, 5)
        self.load(log)
        everything = self.shown()
        self.assertEqual(everything, list(range(1, 46)))
        self.browser.value('process.focus()')
        self.browser.type("SP")  # the second process, chosen by its first letters
        spell = self.shown()
        self.assertEqual(self.browser.value("process.value"), "2")
        self.assertTrue(2 in spell and 1 not in spell and 1 < len(spell) < 45, spell)
        self.assertEqual(self.browser.value("count.textContent"), f"{len(spell)} of 45 lines")
        self.assertEqual(self.browser.value('getComputedStyle(picture.querySelector(\'[data-process="1"]\')).opacity'), "0.25")
        self.browser.key("Escape")
        self.assertEqual(self.shown(), everything)
        refused = [int(line) for line in self.browser.value('[...log.querySelectorAll(".refused")].map(row => row.dataset.line)')]
        self.browser.value("refused.click()")
        self.assertTrue(refused)
        self.assertEqual(self.shown(), refused)

    def test_the_keyboard_alone(self):
        self.load(run_of(40, 5))
        for key, line in (("ArrowDown", 1), ("j", 2), ("k", 1), ("ArrowRight", 6), ("ArrowRight", 7), ("ArrowLeft", 6),
                          ("End", 45), ("ArrowDown", 45), ("Home", 1)):
            self.browser.key(key)
            self.assertEqual(self.marked()[0], [str(line)], key)
        self.browser.key("/")
        self.browser.type("start spell")
        found = self.shown()
        self.assertTrue(1 < len(found) < 45, found)
        self.browser.key("ArrowDown")
        self.assertEqual(self.marked()[0], [str(found[1])])  # the first is the one marked before
        self.browser.key("Escape")
        self.assertEqual(len(self.shown()), 45)

    def test_printed(self):
        self.load(run_of(40, 5))
        sizes = re.findall(rb"/MediaBox ?\[0 0 ([0-9.]+) ([0-9.]+)\]", self.browser.printed())
        upright = [float(width) < float(height) for width, height in sizes]
        sheets = self.browser.value('document.querySelectorAll(".sheet").length')
        self.assertEqual(upright.count(False), sheets)
        self.assertIn(upright.count(True), range(1, 4))

    def test_a_long_run(self):
        self.load(run_of(2000, 32))
        self.click(COLUMN_MIDDLE, 1500)
        rows, framed = self.marked()
        self.assertEqual((rows, set(framed)), (["1500"], {"1500"}))
        self.browser.key("ArrowDown")
        rows, framed = self.marked()
        self.assertEqual((rows, set(framed)), (["1501"], {"1501"}))
