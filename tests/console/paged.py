"""The console's page in Debian's chromium, led by keys and clicks; behind each test it is seen that nothing was asked of a network and
nothing stands on the browser's console."""

import json
import os
import shutil
import tempfile
import time
import unittest

from desk.console.console import Console
from desk.console.mistakes import Mistake
from desk.served.monitor import Monitor
from desk.console.page import write_page
from desk.console.reading import read_line
from desk.console.session import Session
from tests.console.room import LONGEST
from tests.explain.browser import CHROMIUM, MISSING, Browser

KEY_CODES = {"Enter": (13, "\r"), "ArrowRight": (39, ""), "ArrowLeft": (37, ""), "Home": (36, ""), "End": (35, ""), "ArrowDown": (40, "")}

# Runs a list of scripts in the page: for each the log with its answers, what was told, the last table, and where it was a mistake.
RUN_ALL = """scripts => { const run = new station.run.constructor(station.run.monitor); return scripts.map(script => {
  run.clear(); let mistake = null;
  try { for (const line of script) run.say(line); }
  catch (error) { if (!(error instanceof station.Mistake)) throw error; mistake = [error.column, error.message]; }
  return { log: run.log(true), bare: run.log(), words: run.words(), mistake, told: run.rows().map(row => `${row.place} ${row.caller} ${row.text}`).join(" "),
    faults: run.rows().some(row => row.kind === "fault"), table: run.now.words && [...run.now.words] }; }); }"""


def read(path):
    """The bytes of a file."""
    with open(path, "rb") as file:
        return file.read()


def latin(data):
    """Bytes as the page gives them, a letter each."""
    return data.decode("latin-1")


def by_console(monitor, script):
    """What ./console makes of a script of statements of the run, as RUN_ALL gives it."""
    session, told, mistake = Session(monitor), [], None
    console = Console(session)
    try:
        for line in script:
            statement = read_line(line)
            told += [row for row in console.do(statement) if not row.startswith("The layout was")] if statement else []
    except Mistake as error:
        mistake = [error.column, error.sentence]
    return {"log": latin(session.log(True)), "bare": latin(session.log()), "words": session.words(), "mistake": mistake,
            "told": " ".join(" ".join(told).split()), "table": monitor.words() if session.names.laid and not session.over else None}


@unittest.skipUnless(CHROMIUM, MISSING)
@unittest.skipUnless(shutil.which("clang") and shutil.which("wasm-ld"), "clang and lld, which make the page's WebAssembly, aren't here")
class PageTest(unittest.TestCase):
    @classmethod
    def setUpClass(cls):
        cls.folder = tempfile.TemporaryDirectory()
        cls.path = os.path.join(cls.folder.name, "console.html")
        write_page(cls.path)
        cls.browser = Browser().__enter__()
        cls.monitor = Monitor()

    @classmethod
    def tearDownClass(cls):
        cls.monitor.close()
        cls.browser.__exit__()
        cls.folder.cleanup()

    def setUp(self):
        self.open()

    def open(self, width=1400, height=900):
        """The page anew, once it is ready."""
        self.browser.open(self.path, width, height)
        self.wait("document.body.dataset.ready")

    def wait(self, expression):
        """Waits until something holds in the page."""
        end = time.monotonic() + LONGEST
        while not self.browser.value(expression):
            self.assertLess(time.monotonic(), end, expression)
            time.sleep(0.02)

    def tearDown(self):
        wrong = [event for event in self.browser.events if event.get("method") in ("Runtime.exceptionThrown", "Runtime.consoleAPICalled", "Log.entryAdded")]
        asked = [event["params"]["request"]["url"] for event in self.browser.events if event.get("method") == "Network.requestWillBeSent"]
        self.assertEqual(wrong, [])
        self.assertEqual([url for url in asked if not url.startswith(("file:///", "data:,", "blob:"))], [])

    def all_in_page(self, scripts):
        """What the page makes of some scripts."""
        return self.browser.value(f"({RUN_ALL})({json.dumps(scripts)})")

    def key(self, name):
        """A key, pressed and let go."""
        code, text = KEY_CODES[name] if name in KEY_CODES else (ord(name.upper()), name)
        for kind in ("keyDown", "keyUp"):
            typed = {"text": text} if text and kind == "keyDown" else {}
            self.browser.ask("Input.dispatchKeyEvent", type=kind, key=name, windowsVirtualKeyCode=code, **typed)

    def click(self, choice):
        """A click of the mouse on the element that a selector finds."""
        x, y = self.browser.value(f"(() => {{ const e = document.querySelector({json.dumps(choice)}); e.scrollIntoView({{ block: 'nearest' }}); "
                                  "const r = e.getBoundingClientRect(); return [r.x + r.width / 2, r.y + r.height / 2]; })()")
        self.browser.click(x, y)

    def say(self, line):
        """A line typed into the page's line, and Enter."""
        self.browser.ask("Input.insertText", text=line)
        self.key("Enter")

    def said(self):
        """What the page says last."""
        return self.browser.value("document.getElementById('said').textContent")

    def table(self):
        """The words of the table at the moment that is shown."""
        return self.browser.value("station.run.now.words && [...station.run.now.words]")
