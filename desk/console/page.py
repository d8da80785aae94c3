"""The console as one page for a web browser: the proved monitor as WebAssembly, and the files of the folder 'page' put together.

The modules of script there import from each other by name; in the page each is a function that gives what it exports. What they
import from given.js comes from here: the words that the desk's Python says, the language's forms, scenarios and the monitor.
"""

import base64
import hashlib
import json
import os
import re
import subprocess
import tempfile

from desk import HOME
from desk.console.files import named, put
from desk.console.forms import GROUPS
from desk.console.operands import EXPECTED
from desk.log.refusals import MEANINGS, STATES
from desk.log.standard import CannotGoOn
from desk.log.station import STANDINGS
from desk.table.clauses import TEXTS, broken
from desk.table.words import AT_SEMAPHORE, BUFFER_NAMES, HEADER_NAMES, PROCESS_NAMES, SEMAPHORE_NAMES

HERE = os.path.join(os.path.dirname(os.path.abspath(__file__)), "page")
BEGINS = b"<!DOCTYPE html>\n<!-- A page of ./console -->\n"
MODULES = ("dom", "monitor", "table", "telling", "why", "language", "lines", "layout", "run", "view", "timeline", "main")  # each behind those it imports
SCENARIOS = ("round-trip", "ring", "orphan", "kept-interrupt", "semaphore", "equal-priorities", "spoiled-table")
SOURCES = ("source/monitor.c", "source/why.c", "source/screen.c")
ENTRIES = ("monitor_layout", "monitor_trap", "monitor_stuck", "monitor_rings", "monitor_screen", "monitor_why")
COMPILER = ("clang", "--target=wasm32", "-Os", "-nostdlib", "-ffreestanding", "-Wl,--no-entry", "-Wl,--strip-all")
IMPORT = re.compile(r'^import (\{[^}]*\}) from "\./(\w+)\.js";$', re.MULTILINE)
EXPORT = re.compile(r"^export (?:(?:const|class|function|async function) (\w+)|const \[([^\]]*)\])", re.MULTILINE)


def text_of(*names):
    """A file of the repository, or of the page's folder."""
    with open(os.path.join(HERE, *names), encoding="utf-8") as file:
        return file.read()


def monitor_bytes():
    """The monitor as WebAssembly, compiled here."""
    with tempfile.TemporaryDirectory() as folder:
        made = os.path.join(folder, "monitor.wasm")
        words = [*COMPILER, f"-I{os.path.join(HOME, 'include')}", *(f"-Wl,--export={entry}" for entry in ENTRIES), "-o", made,
                 *(os.path.join(HOME, source) for source in SOURCES)]
        try:
            run = subprocess.run(words, stdin=subprocess.DEVNULL, capture_output=True, text=True, check=False)
        except OSError as error:
            raise CannotGoOn("there is no 'clang', which makes the page's WebAssembly; on Debian it is in the packages 'clang' and 'lld'.") from error
        if run.returncode != 0:
            said = (run.stderr.strip().split("\n") or [""])[0]
            raise CannotGoOn(f"clang makes no WebAssembly here ({said}); on Debian it wants the package 'lld' too.")
        with open(made, "rb") as file:
            return file.read()


def scenario(name):
    """A scenario: its title and notes, which are the remarks it begins with, and its lines."""
    lines = text_of(HOME, "examples", "words", f"{name}.words").rstrip("\n").split("\n")
    remarks = [line[2:] for line in lines[:next(i for i, line in enumerate(lines) if not line.startswith("# "))]]
    return {"title": remarks[0], "notes": " ".join(remarks[1:]), "lines": lines}


def given(monitor):
    """The module of what is given from here."""
    values = {
        "MEANINGS": MEANINGS, "STATES": STATES, "STANDINGS": STANDINGS, "EXPECTED": EXPECTED, "GROUPS": GROUPS,
        "CLAUSES": TEXTS, "BROKEN": [None, *map(broken, range(1, len(TEXTS)))],
        "WORD_NAMES": {"header": HEADER_NAMES, "process": PROCESS_NAMES, "waiter": AT_SEMAPHORE, "buffer": BUFFER_NAMES, "semaphore": SEMAPHORE_NAMES},
        "SCENARIOS": {name: scenario(name) for name in SCENARIOS}, "MONITOR_BYTES": base64.b64encode(monitor).decode(),
    }
    return "".join(f"export const {name} = {json.dumps(value)};\n" for name, value in values.items())


def module(name, text):
    """A module of script as a function that gives what it exports."""
    exported = [one for word, several in EXPORT.findall(text) for one in ([word] if word else several.split(", "))]
    body = IMPORT.sub(r"const \1 = $\2;", re.sub(r"^export ", "", text, flags=re.MULTILINE))
    return f"const ${name} = (() => {{\n{body}return {{ {', '.join(exported)} }};\n}})();\n"


def page():
    """The page's text."""
    monitor = monitor_bytes()
    script = '"use strict";\n' + module("given", given(monitor)) + "".join(module(name, text_of(f"{name}.js")) for name in MODULES)
    sums = [hashlib.sha256(text_of(HOME, source).encode()).hexdigest() for source in SOURCES]
    parts = {
        "STYLE": text_of("page.css"), "SCRIPT": script.replace("</", "<\\/"), "VERSION": text_of(HOME, "VERSION").strip(),
        "MONITOR_LENGTH": str(len(monitor)), "MONITOR_SUM": hashlib.sha256(monitor).hexdigest(),
        "SOURCE_SUMS": ", ".join(f"{os.path.basename(source)} {one}" for source, one in zip(SOURCES, sums)),
    }
    return re.sub(r"\b(STYLE|SCRIPT|VERSION|MONITOR_LENGTH|MONITOR_SUM|SOURCE_SUMS)\b", lambda found: parts[found[0]], text_of("page.html"))


def write_page(path):
    """Puts the page into a file, which has to be none, or an older page."""
    if os.path.isdir(path):
        raise CannotGoOn(f"{named(path)} is a folder, not a file.")
    try:
        with open(path, "rb") as there:
            is_page = there.read(len(BEGINS)) == BEGINS
    except OSError:
        is_page = True  # nothing is there; if nothing can be, the writing says why
    if not path or not is_page:
        raise CannotGoOn(f"{named(path)} is there and is no page of ./console, so it is left alone." if path else "a file that is written wants a name.")
    put(os.fsencode(os.path.realpath(path)), page().encode(), path)
