"""The console's page as people use it: every scenario by clicks and by keys, step back and forward, a log dropped in and saved."""

import json
import os
import random
import subprocess
import time
import unittest

from desk.console.page import SCENARIOS, scenario
from desk.console.reading import read_line
from desk.console.session import is_of_run
from desk.log import lines
from desk.table.dumps import dumps_in
from desk.table.words import Table
from tests.console.paged import PageTest, by_console, latin, read
from tests.console.room import HOME, LONGEST


class ScenariosTest(PageTest):
    def last(self, name):
        """The last table of a scenario, and how many steps it has, by ./console."""
        steps = [line for line in scenario(name)["lines"] if (statement := read_line(line)) and is_of_run(statement)]
        return by_console(self.monitor, steps)["table"], len(steps)

    def choose(self, number):
        """A scenario, by the keyboard."""
        self.browser.value("document.getElementById('scenario').focus()")
        for _ in range(number):
            self.key("ArrowDown")

    def test_by_clicks_and_by_keys(self):
        for number, name in enumerate(SCENARIOS, 1):
            table, steps = self.last(name)
            with self.subTest(scenario=name):
                self.open()
                self.choose(number)
                self.assertIn(scenario(name)["title"], self.said())
                for _ in range(steps):
                    self.click("#forward")
                self.assertEqual(self.table(), table)
                self.assertTrue(self.browser.value("document.getElementById('forward').disabled"))
                self.click("#first")
                self.browser.value("document.activeElement.blur()")
                for _ in range(steps):
                    self.key("ArrowRight")
                self.assertEqual(self.table(), table)

    def test_by_typing(self):
        for name in SCENARIOS:
            table, _ = self.last(name)
            with self.subTest(scenario=name):
                self.open()
                self.key("/")
                for line in scenario(name)["lines"]:
                    statement = read_line(line)
                    if statement and is_of_run(statement):
                        self.say(line)
                self.assertEqual(self.table(), table)

    def test_back_and_forward(self):
        self.choose(2)
        self.browser.value("document.activeElement.blur()")
        self.key("End")
        tables = self.browser.value("station.run.moments.map(moment => moment.words && [...moment.words])")
        for at in [*range(len(tables) - 2, -1, -1), *range(1, len(tables))]:
            self.key("ArrowLeft" if at != self.browser.value("station.run.at") + 1 else "ArrowRight")
            self.assertEqual((self.browser.value("station.run.at"), self.table()), (at, tables[at]))
        self.browser.value("document.getElementById('slider').value = 9; document.getElementById('slider').dispatchEvent(new Event('input'))")
        self.assertEqual(self.table(), tables[9])

    def test_a_ring_is_lit_up(self):
        self.choose(2)
        closes = self.browser.value("station.run.moments.findIndex(moment => moment.rings.length)")
        for at, due in ((closes - 1, 0), (closes, 3), (closes + 1, 0)):
            self.browser.value(f"station.go({at})")
            self.assertEqual(self.browser.value("document.querySelectorAll('#processes tr.ring').length"), due)
        self.assertIn("A ring closes: READ > SPELL > PRINT > READ.", self.browser.value("document.getElementById('log').textContent"))


class UseTest(PageTest):
    def test_a_station_by_clicks(self):
        self.click("#line")
        for line in ("process READ priority 5", "process SPELL priority 3", "start READ"):
            self.say(line)
        self.click("[aria-label='Start SPELL']")
        self.click("#tick")
        self.click("#interrupt")
        self.click("[aria-label='Stop READ']")
        self.click("[aria-label='Clean SPELL']")
        self.assertEqual(self.browser.value("station.run.words()")[2:], ["start READ", "start SPELL", "tick", "interrupt 3", "stop READ", "clean SPELL"])
        self.assertIn("Clean SPELL: SPELL is stopped. Nobody runs. Nothing open.", self.said())

    def test_mistakes_and_refusals_in_words(self):
        self.click("#line")
        for line, due in (("sned X", "Column 1: expected the first word of a form ('help' names them all), and found 'sned'; the nearest word is send."),):
            self.say(line)
            self.assertEqual((self.said(), self.browser.value("document.getElementById('line').value")), (due, line))
        self.browser.value("document.getElementById('line').value = ''")
        for line in ("process READ priority 5", "start READ", "send READ"):
            self.say(line)
        self.assertIn("refused with 8, a process can't send to itself", self.said())

    def test_a_word_is_spoiled_by_a_click(self):
        self.browser.value("station.begin(['process A priority 1', 'start A'], 'x')")
        self.browser.value("station.go(2); document.querySelector('#station details').open = true")
        self.assertEqual(self.browser.value("document.querySelector('.why').textContent"), "The table is sound.")
        self.click("[aria-label^='word 2,']")
        told = ("The table isn't sound: the first of the running queue doesn't run. Word 2, the first of the running queue, is 0002. Clause 15, of \"The "
                "running queue\" in docs/MONITOR.md, 3: \"The running queue holds exactly the processes in state 1, each once, linked both ways, and "
                "priorities never rise along it.\"")
        self.assertEqual(self.said(), f"Word 2 of the table becomes 0002, by no call. {told}")
        self.assertEqual(self.browser.value("[document.querySelector('.why').textContent, document.querySelectorAll('.named').length, "
                                            "document.querySelector('.named').textContent]"), [told, 1, "0002"])
        self.click("#line")
        self.say("why")
        self.assertEqual(self.said(), told)
        self.click("#tick")
        self.assertIn("Tick: refused with 1, the table is not sound.", self.said())
        spoiled = self.table()
        self.assertEqual(spoiled[2], 2)
        self.click("#back")
        self.click("#back")
        self.click("#tick")
        self.assertIn("Tick: nobody wakes.", self.said())

    def test_the_scenario_of_a_spoiled_table(self):
        self.browser.value("const scenario = document.getElementById('scenario'); scenario.value = 'spoiled-table'; "
                           "scenario.dispatchEvent(new Event('change'))")
        self.assertTrue(self.browser.value("document.getElementById('table-words').open"))
        self.click("#last")
        self.click("[aria-label^='word 88,']")
        self.assertIn("Word 88 of the table becomes 0001, by no call.", self.said())
        self.assertIn("Word 73, process 1's previous in the running queue, is 0000. Clause 19, of", self.said())
        self.click("#back")
        self.assertEqual(self.browser.value("document.querySelector('.why').textContent"), "The table is sound.")

    def test_why_as_at_the_desk(self):
        """The clause, record and place of spoiled tables, and every word's name, are those of the program that ./explain --table asks."""
        words, draw = dumps_in(read(os.path.join(HOME, "examples", "damaged.table")), None, "it")[0].words, random.Random(43)
        spoiled = [words]
        for _ in range(300):
            spoiled.append(list(words[:draw.choice((240, 240, 240, 150, 20))]))
            for _ in range(draw.randint(1, 3)):
                spoiled[-1][draw.randrange(len(spoiled[-1]))] = draw.choice((0, 1, 2, 5, 9, 200, 65535))
        for table, fault in zip(spoiled, self.browser.value(f"{json.dumps(spoiled)}.map(words => station.run.why(words))")):
            self.monitor.take(table)
            self.assertEqual((fault["clause"], fault["record"], fault["place"]), self.monitor.why())
        names = self.browser.value(f"{json.dumps(spoiled[:40])}.map(words => words.map((_, place) => station.wordNamed(place, words)))")
        for table, named in zip(spoiled, names):
            if Table(table).used is not None:
                self.assertEqual(named, [Table(table).named(place) for place in range(len(table))])

    def test_a_log_dropped_in_and_saved(self):
        data = read(os.path.join(HOME, "examples", "station.log"))
        self.browser.value(f"(() => {{ const files = new DataTransfer(); files.items.add(new File([{json.dumps(latin(data))}], 'station.log')); "
                           "document.dispatchEvent(new DragEvent('drop', { dataTransfer: files, bubbles: true, cancelable: true })); })()")
        self.wait(f"station.run.moments.length === {len(lines.cut(data)) + 1}")
        self.assertEqual(self.browser.value("station.run.log()"), latin(data))
        self.assertEqual(read(self.saved("save-log", "run.log")), data)
        words = read(self.saved("save-words", "run.words")).decode().rstrip("\n").split("\n")
        self.assertEqual(self.all_in_page([words])[0]["bare"], latin(data))

    def test_the_ring_of_owners(self):
        """What somebody does who knows only README: the ring, its cleaning, the log, and ./explain."""
        self.click("#line")
        for line in scenario("ring")["lines"]:
            statement = read_line(line)
            if statement and statement.name == "clean":
                break
            if statement and is_of_run(statement):
                self.say(line)
        self.assertEqual(self.browser.value("document.querySelectorAll('#processes tr.ring').length"), 3)
        self.click("[aria-label='Clean SPELL']")
        self.assertEqual(self.browser.value("document.querySelectorAll('#processes tr.ring').length"), 0)
        told = subprocess.run([os.path.join(HOME, "explain"), self.saved("save-log", "run.log")], capture_output=True, timeout=LONGEST, check=False)
        self.assertEqual((told.returncode, told.stderr), (0, b""))
        self.assertIn(b"A ring closes: READ > SPELL > PRINT > READ.", told.stdout)
        self.assertIn(b"The ring is gone: READ > SPELL > PRINT > READ.", told.stdout)

    def saved(self, button, name):
        """The file that a button saves; gives its path, once it is there."""
        path, end = os.path.join(self.folder.name, name), time.monotonic() + LONGEST
        if os.path.exists(path):
            os.unlink(path)
        self.browser.ask("Page.setDownloadBehavior", behavior="allow", downloadPath=self.folder.name)
        self.click(f"#{button}")
        while not (os.path.exists(path) and os.path.getsize(path)):
            self.assertLess(time.monotonic(), end)
            time.sleep(0.05)
        return path

    def test_no_width_needs_scrolling_sideways(self):
        for width, height in ((1400, 900), (800, 1100), (390, 844)):
            self.open(width, height)
            self.browser.value("station.begin(['edition 1', 'semaphore 1', 'process READ priority 5 buffers 9', 'process PRINT priority 3', 'start READ', "
                               "'send PRINT \"page 7\"', 'wait answer 1'], 'x'); station.go(7)")
            self.assertLessEqual(self.browser.value("document.documentElement.scrollWidth"), width)

    def test_everything_has_a_name(self):
        self.browser.value("station.begin(['process A priority 1', 'start A'], 'x'); station.go(2)")
        self.assertEqual(self.browser.value("[...document.querySelectorAll('button')].filter(one => !one.textContent.trim() && !one.ariaLabel).length"), 0)
        self.assertEqual(self.browser.value("[...document.querySelectorAll('input:not([hidden]), select')].filter(one => !one.labels.length && !one.ariaLabel)"
                                            ".length"), 0)
        self.assertEqual(self.browser.value("document.getElementById('said').getAttribute('aria-live')"), "polite")

    def test_it_prints(self):
        self.assertTrue(self.browser.printed().startswith(b"%PDF"))


if __name__ == "__main__":
    unittest.main()
