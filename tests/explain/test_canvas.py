"""Where ./explain puts a picture or a page, and the files that it leaves alone."""

import os
import re
import unittest
import xml.etree.ElementTree

from tests.explain.room import Room, read
from tests.explain.runs import run_of

WORKED = "examples/worked.log"
TICK = b"09" + b"0" * 24 + b"\n"
OLD = b'<?xml version="1.0" encoding="UTF-8"?>\n<!-- old -->\n<svg xmlns="http://www.w3.org/2000/svg"/>\n'


class CanvasTest(unittest.TestCase):
    """A room in which the worked run is mine.log."""

    def setUp(self):
        self.room = Room().__enter__()
        self.addCleanup(self.room.__exit__)
        self.room.build()
        self.log = read(self.room.place(WORKED))
        self.write("mine.log", self.log)

    def write(self, name, data):
        with open(self.room.place(name), "wb") as file:
            file.write(data)

    def refused(self, line, *parts):
        """The line ends with one sentence that has these parts, tells nothing and leaves the log alone."""
        run = self.room.typed(line)
        self.assertEqual((run.returncode, run.stdout, run.stderr.count(b"\n")), (2, b"", 1), (line, run.stderr))
        for part in parts:
            self.assertIn(part, run.stderr.decode(), line)
        self.assertEqual(read(self.room.place("mine.log")), self.log)

    def painted(self, line, name):
        """The line paints a picture there, and leaves nothing else."""
        before = set(os.listdir(self.room.folder))
        run = self.room.typed(line)
        self.assertEqual((run.returncode, run.stderr), (0, b""), line)
        picture = read(self.room.place(name))
        self.assertIn("un of 7 calls", "".join(xml.etree.ElementTree.fromstring(picture).itertext()))
        self.assertEqual(set(os.listdir(self.room.folder)) - before, {name} - before)

    def test_the_pictures_name_forgotten(self):
        self.refused("./explain --picture mine.log", "'mine.log' is there and is no SVG picture")
        self.refused("./explain --picture mine.log <examples/station.log", "'mine.log' is there and is no SVG picture")
        self.refused("./explain --picture '' mine.log", "--picture wants a name")

    def test_the_log_by_any_name(self):
        os.symlink("mine.log", self.room.place("linked.svg"))
        os.link(self.room.place("mine.log"), self.room.place("twin.svg"))
        for out in ("mine.log", "./mine.log", "linked.svg", "twin.svg", "examples/../mine.log"):
            self.refused(f"./explain --picture {out} mine.log", f"'{out}' is the log itself")
            self.refused(f"./explain --picture {out} <mine.log", f"'{out}' is the log itself")
        self.assertTrue(os.path.islink(self.room.place("linked.svg")))

    def test_a_log_that_is_a_picture(self):
        self.write("strange.svg", OLD)
        self.refused("./explain --picture strange.svg strange.svg", "is the log itself")
        self.assertEqual(read(self.room.place("strange.svg")), OLD)

    def test_files_that_are_no_pictures(self):
        texts = {
            "text": b"notes of the day\n", "empty": b"", "bytes": bytes(range(256)), "page.html": b"<html><svg/></html>",
            "broken.svg": b"<?xml version='1.0'?>\n<", "strange.xml": b"<?xml version='1.0' encoding='nobodys'?><svg/>",
            "speaks of": b"not <svg> but text", "other.xml": b"<log xmlns='http://www.w3.org/2000/svg'/>",
        }
        for name, data in texts.items():
            self.write(name, data)
            self.refused(f"./explain --picture '{name}' mine.log", "is no SVG picture, so it is left alone")
            self.assertEqual(read(self.room.place(name)), data)

    def test_what_is_no_file(self):
        os.mkfifo(self.room.place("pipe"))
        self.refused("./explain --picture pipe mine.log", "is no SVG picture")
        self.refused("./explain --picture /dev/null mine.log", "is no SVG picture")
        self.refused("./explain --picture examples mine.log", "it is a folder")

    def test_new_pictures_and_old_ones(self):
        self.painted("./explain --picture new.svg mine.log", "new.svg")
        for old in (OLD, b"<svg/>", b"\n".join([b"<!DOCTYPE svg>", b"<svg><rect/></svg>"])):
            self.write("old.svg", old)
            self.painted("./explain --picture old.svg mine.log", "old.svg")
        self.painted("./explain --picture old.svg <mine.log", "old.svg")

    def test_a_log_with_an_odd_name(self):
        name = b"odd\x01\xff<.log"
        with open(os.path.join(os.fsencode(self.room.folder), name), "wb") as file:
            file.write(self.log)
        self.painted("./explain --picture new.svg odd*.log", "new.svg")
        self.assertIn(b"odd??&lt;.log: a run of 7 calls", read(self.room.place("new.svg")))

    def test_links_stay_links(self):
        for name in ("old.svg", "to come.svg"):
            os.symlink(name, self.room.place("linked.svg"))
            self.painted("./explain --picture linked.svg mine.log", name)
            self.assertTrue(os.path.islink(self.room.place("linked.svg")))
            os.unlink(self.room.place("linked.svg"))
            self.write("to come.svg", OLD)

    @unittest.skipIf(os.geteuid() == 0, "the superuser may write every file")
    def test_a_picture_that_may_not_be_written(self):
        self.write("old.svg", OLD)
        os.chmod(self.room.place("old.svg"), 0o444)
        self.refused("./explain --picture old.svg mine.log", "may not be written")
        self.assertEqual(read(self.room.place("old.svg")), OLD)

    def test_no_room_for_the_picture(self):
        self.write("old.svg", OLD)
        for out in ("old.svg", "new.svg"):
            before = sorted(os.listdir(self.room.folder))
            run = self.room.typed(f"ulimit -f 1; ./explain --picture {out} mine.log | cat")
            self.assertIn(f"explain: the picture '{out}' can't be written: File too large.\n".encode(), run.stderr)
            self.assertEqual(run.stderr.count(b"\n"), 1)
            self.assertEqual(sorted(os.listdir(self.room.folder)), before)
        self.assertEqual(read(self.room.place("old.svg")), OLD)

    def test_a_folder_that_is_not_there(self):
        run = self.room.typed("./explain --picture nowhere/run.svg mine.log")
        self.assertEqual((run.returncode, run.stderr.count(b"\n")), (2, 1))
        self.assertIn(b"the picture 'nowhere/run.svg' can't be written: No such file or directory.", run.stderr)

    def test_no_picture_of_no_calls(self):
        self.write("laid.log", self.log[:54])
        self.write("empty.log", b"")
        self.write("old.svg", OLD)
        for log in ("laid.log", "empty.log", "examples/refused-layout.log"):
            for out in ("new.svg", "old.svg"):
                run = self.room.typed(f"./explain --picture {out} {log}")
                self.assertEqual((run.returncode, run.stderr.count(b"\n")), (2, 1), log)
                self.assertIn(b"no call that was answered, so there is nothing to paint", run.stderr)
                self.assertIn(b"line  caller", run.stdout)
        self.assertFalse(os.path.exists(self.room.place("new.svg")))
        self.assertEqual(read(self.room.place("old.svg")), OLD)

    def test_a_page_is_put_as_a_picture_is(self):
        self.write("old.svg", OLD)
        self.write("other.html", b"<!DOCTYPE html>\n<html></html>\n")
        os.link(self.room.place("mine.log"), self.room.place("twin.html"))
        self.refused("./explain --page mine.log", "'mine.log' is there and is no page of ./explain, so it is left alone; after --page")
        self.refused("./explain --page old.svg mine.log", "is no page of ./explain")
        self.refused("./explain --page other.html mine.log", "is no page of ./explain")
        self.refused("./explain --page twin.html mine.log", "'twin.html' is the log itself, which a page would destroy")
        self.refused("./explain --page '' mine.log", "--page wants a name for the page")
        self.refused("./explain --page examples mine.log", "it is a folder")
        self.refused("./explain --page a.html --picture a.svg mine.log", "not allowed with argument")
        for out in ("new.html", "new.html"):
            self.assertEqual(self.room.typed(f"./explain --page {out} mine.log").stderr, b"")
        self.assertIn(b"mine.log: a run of 7 calls", read(self.room.place("new.html")))
        self.refused("./explain --picture new.html mine.log", "is no SVG picture")

    def test_no_page_of_no_calls_or_of_too_many_lines(self):
        self.write("laid.log", self.log[:54])
        self.write("long.log", self.log + TICK * 130000)
        self.write("full.log", run_of(13000, 32))
        self.assertIn(b"there is nothing to paint", self.room.typed("./explain --page new.html laid.log").stderr)
        self.refused("./explain --page new.html long.log", "the page would have 33 million bytes, and 32 million are the most; --lines")
        run = self.room.typed("./explain --page new.html full.log")
        self.assertEqual((run.returncode, run.stderr.count(b"\n")), (2, 1))
        self.assertRegex(run.stderr, b"the page would have [0-9]+ million bytes, and 32 million are the most; --lines, --process and --refused choose")
        self.assertFalse(os.path.exists(self.room.place("new.html")))

    def test_a_long_run_in_several_files(self):
        self.write("long.log", self.log + TICK * 400)
        run = self.room.typed("./explain --picture run.svg long.log")
        sheets = sorted(name for name in os.listdir(self.room.folder) if name.startswith("run"))
        self.assertEqual((run.returncode, run.stderr.count(b"\n")), (0, 1))
        self.assertIn(f"has {len(sheets)} sheets, 'run-01.svg' to 'run-{len(sheets):02}.svg'.".encode(), run.stderr)
        self.assertEqual(sheets, [f"run-{number:02}.svg" for number in range(1, len(sheets) + 1)])
        for number, name in enumerate(sheets, 1):
            self.assertIn(f"sheet {number} of {len(sheets)}".encode(), read(self.room.place(name)))
        self.assertEqual(self.room.typed("./explain --picture wide.svg --columns 200 long.log").stderr, b"")
        self.assertFalse(os.path.exists(self.room.place("wide-02.svg")))

    def test_many_sheets_have_to_be_asked_for(self):
        self.write("long.log", self.log + TICK * 8000)
        run = self.room.typed("./explain --summary --picture run.svg long.log")
        self.assertEqual((run.returncode, run.stderr.count(b"\n")), (2, 1))
        self.assertRegex(run.stderr, b"the picture has [0-9]+ sheets, a file each; --all-sheets paints them all, --lines, --process and --refused choose")
        self.assertEqual([name for name in os.listdir(self.room.folder) if name.startswith("run")], [])
        self.assertEqual(self.room.typed("./explain --picture run.svg --lines 1-30 long.log").returncode, 0)
        self.assertEqual(self.room.typed("./explain --summary --picture run.svg --all-sheets long.log").returncode, 0)
        self.assertGreater(len([name for name in os.listdir(self.room.folder) if name.startswith("run-")]), 50)
        self.refused("./explain --all-sheets mine.log", "--all-sheets goes with --picture")

    def test_standard_output(self):
        for option, begins in (("--picture", b"<?xml"), ("--waits", b"<?xml"), ("--page", b"<!DOCTYPE html>")):
            run = self.room.typed(f"./explain {option} - mine.log")
            self.assertEqual((run.returncode, run.stderr), (0, b""))
            self.assertTrue(run.stdout.startswith(begins))
        self.room.typed("./explain --picture new.svg mine.log")
        self.assertEqual(self.room.typed("./explain --picture - mine.log").stdout, read(self.room.place("new.svg")))
        self.write("long.log", self.log + TICK * 400)
        run = self.room.typed("./explain --picture - long.log")
        self.assertEqual((run.returncode, run.stdout, run.stderr.count(b"\n")), (2, b"", 1))
        self.assertIn(b"sheets, and standard output takes one; --lines", run.stderr)

    def test_chosen_lines(self):
        station = os.path.join("examples", "station.log")
        whole = self.room.typed(f"./explain --columns 100 --picture - {station}").stdout.decode()
        for options, count in (("--lines 8-20", 13), ("--refused", 10), ("--process PRINT", 16), ("--buffer 3 --lines 1-40", 9)):
            run = self.room.typed(f"./explain {options} --columns 100 --picture - {station}")
            self.assertIn(f"station.log: {count} chosen of 59 calls".encode(), run.stdout, options)
            shown = re.search(r'data-lines="([^"]*)"', run.stdout.decode())[1].split()
            self.assertEqual(len(shown), count)
            told = self.room.typed(f"./explain {options} {station}").stdout.decode()
            for line in shown:
                self.assertRegex(told, rf"(?m)^ +{line}  ")
                self.assertIn(f" {line}", whole)
            page = self.room.typed(f"./explain {options} --page - {station}").stdout.decode()
            self.assertEqual(re.findall(r'class="(?:refused )?call" data-line="([0-9]+)"', page), shown)

    def test_an_arrow_is_drawn_only_in_the_column_of_its_call(self):
        run = self.room.typed("./explain --lines 36-38 --picture - examples/station.log").stdout.decode()
        self.assertEqual(run.count('class="way"'), 1)  # that of the legend

    def test_a_further_sheet_destroys_nothing(self):
        self.write("long.log", self.log + TICK * 400)
        self.write("run-03.svg", b"notes of the day\n")
        run = self.room.typed("./explain --picture run.svg long.log")
        self.assertEqual((run.returncode, run.stderr.count(b"\n")), (2, 1))
        self.assertIn(b"'run-03.svg' is there and is no SVG picture", run.stderr)
        self.assertEqual(read(self.room.place("run-03.svg")), b"notes of the day\n")
        self.assertFalse(os.path.exists(self.room.place("run-01.svg")))

    def test_columns(self):
        for word in ("4", "201", "-5", "many", "", "٢٥"):
            self.refused(f"./explain --picture new.svg --columns '{word}' mine.log", "columns")
        self.refused("./explain --columns 10 mine.log", "--columns goes with --picture or --page")
