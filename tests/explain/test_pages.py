"""The pages lead somewhere: their links and the files they name are there, so are the sections that comments refer to, and their picture is as painted now."""

import glob
import os
import re
import unittest

from tests.explain.room import HOME, Room, read

PAGES = [os.path.join(HOME, "README.md"), *sorted(glob.glob(os.path.join(HOME, "docs", "*.md")))]
ROOMS = ("bench", "bindings", "crates", "desk", "docs", "examples", "include", "parcel", "tests")
PATH = re.compile(rf"`((?:{'|'.join(ROOMS)})/[\w./-]+)`")
DEFINITIONS = re.compile(r"`(\w+\.antt)`")
SECTION = re.compile(r"MONITOR\.md, (\d+(?:\.\d+)?)")


def text_of(path):
    return read(path).decode()


def told_in(pattern, *names):
    """What a pattern finds in some pages, with the page."""
    return [(os.path.basename(page), found) for page in PAGES if os.path.basename(page) in names or not names
            for found in pattern.findall(text_of(page))]


def kept_files():
    """The files of the rooms, without test cases made elsewhere and what was built."""
    for room in ROOMS:
        for folder, folders, names in os.walk(os.path.join(HOME, room)):
            folders[:] = [one for one in folders if one not in ("vectors", "target", "__pycache__")]
            yield from (os.path.join(folder, name) for name in names)


class PagesTest(unittest.TestCase):
    def test_links_lead_to_files(self):
        links = [(page, target) for page in PAGES for target in re.findall(r"\]\(([^):#]+)\)", text_of(page))]
        self.assertTrue(links)
        for page, target in links:
            with self.subTest(page=os.path.basename(page), link=target):
                self.assertTrue(os.path.exists(os.path.join(os.path.dirname(page), target)))

    def test_files_that_are_named_are_there(self):
        for page, path in told_in(PATH):
            with self.subTest(page=page, path=path):
                self.assertTrue(glob.glob(os.path.join(HOME, path.replace("NAME", "*") + "*")))
        definitions = told_in(DEFINITIONS, "MONITOR.md", "README.md", "CONTRIBUTING.md")
        self.assertTrue(definitions)
        for page, name in definitions:
            with self.subTest(page=page, definitions=name):
                self.assertTrue(glob.glob(os.path.join(HOME, "crates", "*", "specs", name)))

    def test_sections_that_are_referred_to_are_there(self):
        headings = set(re.findall(r"^##+ (\d+(?:\.\d+)?)\.? ", text_of(os.path.join(HOME, "docs", "MONITOR.md")), re.MULTILINE))
        for path in kept_files():
            for section in SECTION.findall(read(path).decode(errors="replace")):
                with self.subTest(file=os.path.relpath(path, HOME), section=section):
                    self.assertIn(section, headings)

    def test_the_owners_picture_is_as_explain_paints_it(self):
        with Room() as room:
            room.build()
            run = room.run("explain", "--picture", room.place("now.svg"), room.place("examples", "ring-cleaned.log"))
            self.assertEqual((run.returncode, run.stderr), (0, b""))
            self.assertEqual(read(room.place("now.svg")), read(os.path.join(HOME, "docs", "ring-cleaned.svg")),
                             "paint it anew: ./explain --picture docs/ring-cleaned.svg examples/ring-cleaned.log")


if __name__ == "__main__":
    unittest.main()
