"""The picture: its strips and sheets, and what is written in them."""

import re
import unittest
import xml.etree.ElementTree

from desk.explain.picture import Picture
from desk.explain.strips import HEIGHT, WIDTH, Shape, sheets
from desk.log import refusals
from tests.explain.room import EXAMPLES, VECTORS, read
from tests.explain.runs import run_of
from tests.explain.test_explain import A, B, SEND, START_A, START_B, output_of, tell

SVG = "{http://www.w3.org/2000/svg}"
LEAST = 7  # points
WAIT_DEVICE_63, WAIT_ANSWER, TICK = "05003F" + "0" * 20, "020001" + "0" * 20, "09" + "0" * 24


def runs():
    """Names, timelines: the vectors, the examples, and long runs."""
    for path in VECTORS:
        yield path, tell(read(path), read(path[:-3] + ".out"))[1]
    for path in EXAMPLES:
        yield path, tell(read(path), output_of(read(path)))[1]
    for calls, count in ((40, 5), (300, 32)):
        yield f"{calls} calls of {count} processes", tell(run_of(calls, count))[1]


def picture_of(*log, columns=25):
    """The first sheet of some lines, in one piece."""
    return next(Picture(tell("\n".join(log).encode())[1], "some.log", columns).painted())


def written(svg):
    """All that is written in a picture."""
    return [text.text for text in xml.etree.ElementTree.fromstring(svg.encode()).iter(f"{SVG}text")]


class SheetsTest(unittest.TestCase):
    """What holds of all sheets of all runs."""

    def test_every_sheet_fits_a4_and_no_letter_is_small(self):
        for name, timeline in runs():
            for svg in Picture(timeline, "log").painted():
                with self.subTest(run=name):
                    root = xml.etree.ElementTree.fromstring(svg.encode())
                    _, _, width, height = (float(part) for part in root.get("viewBox").split())
                    self.assertEqual((root.get("width"), root.get("height")), (f"{width:.6g}pt", f"{height:.6g}pt"))
                    self.assertTrue(width <= WIDTH and height <= HEIGHT, (width, height))
                    sizes = re.findall(r"font(?:-size)?: ?([0-9.]+)px", root.find(f"{SVG}style").text)
                    self.assertGreaterEqual(min(map(float, sizes)), LEAST)
                    self.assertNotIn("font-size=", svg)

    def test_every_call_of_every_process_is_drawn_once(self):
        for name, timeline in runs():
            for columns in (5, 25, 60):
                drawn = [(row.process, column.place) for sheet in sheets(timeline, Shape(columns)) for _, part in sheet.parts
                         for row in part.rows for column in part.columns]
                with self.subTest(run=name, columns=columns):
                    self.assertEqual(len(drawn), len(set(drawn)))
                    self.assertEqual(len(drawn), len(timeline.names) * len(timeline.columns))

    def test_every_column_of_a_row_is_filled_and_no_bars_overlap(self):
        for name, timeline in runs():
            for sheet in sheets(timeline, Shape(25)):
                for _, part in sheet.parts:
                    for row in part.rows:
                        filled = [column for stretch in row.states for column in range(stretch.first, stretch.end)]
                        taken = [(lane, column) for stretch, lane in row.buffers for column in range(stretch.first, stretch.end)]
                        with self.subTest(run=name, process=row.process, first=part.first):
                            self.assertEqual(sorted(filled), list(range(part.first, part.first + len(part.columns))))
                            self.assertEqual(len(taken), len(set(taken)))

    def test_more_buffers_at_a_process_than_fit_a_sheet(self):
        many = A[:6] + "0064" + A[10:]
        picture = Picture(tell("\n".join([many, B, START_A, *[SEND] * 100, *[TICK] * 30]).encode())[1], "log")
        last = [part for sheet in picture.sheets for _, part in sheet.parts if part.columns[-1].place == 133]
        drawn = [stretch.labels[0] for part in last for row in part.rows for stretch, _ in row.buffers]
        self.assertEqual(sorted(drawn), sorted(f"{b} A>B" for b in range(1, 101)))
        self.assertLessEqual(max(sheet.height for sheet in picture.sheets), HEIGHT)

    def test_every_refusal_has_its_meaning_on_its_sheet(self):
        met = set()
        for name, timeline in runs():
            for svg in Picture(timeline, "log").painted():
                words = written(svg)
                numbers = {int(found) for text in words for found in re.findall(r"^refused (\d+)$", text)}
                for number in numbers:
                    with self.subTest(run=name, number=number):
                        self.assertTrue(any(refusals.MEANINGS[number] in text for text in words))
                met |= numbers
        self.assertLessEqual({2, 3, 4, 5, 6, 7, 8, 9, 13, 19}, met)

    def test_marks_and_arrows(self):
        for name, timeline in runs():
            svg = "".join(Picture(timeline, "log", 200).painted())
            marks = len(re.findall(r'h6l-3 3\.6z" stroke="#000" stroke-width="\.7" fill="#000"', svg)) - svg.count("</svg>")
            with self.subTest(run=name):
                self.assertEqual(marks, sum(column.called and column.current > 0 for column in timeline.columns))
                for column in timeline.columns:
                    if column.title.startswith("send"):
                        givers = [giver for giver, _ in column.went]
                        self.assertEqual(givers, [] if column.refusal else [column.current])


class WrittenTest(unittest.TestCase):
    """What is written."""

    def test_names_and_titles(self):
        words = written(picture_of(A, B, START_A, START_B, SEND, WAIT_ANSWER, "03" + "0" * 24, "040001" + "0" * 20, SEND))
        for text in ("some.log: a run of 7 calls", "start A", "send > B", "wait answer 1", "wait event", "answer 1 > A", "refused 5",
                     "1 A>B", "refused 5: the sender has no free buffer."):
            self.assertIn(text, words)
        self.assertEqual(words.count("A"), 1)

    def test_delays_and_devices_in_titles(self):
        calls = ("05003F0003" + "0" * 16, "030001" + "0" * 20, "0A003F" + "0" * 20, "0B0002" + "0" * 20)
        words = written(picture_of(A, B, START_A, START_B, *calls))
        for text in ("wait device 63, 3 ticks", "wait event, 1 tick", "interrupt 63", "list B"):
            self.assertIn(text, words)

    def test_short_labels_in_narrow_bars(self):
        wide = (A, B, START_A, START_B, WAIT_DEVICE_63, TICK, TICK)
        self.assertIn("device 63", written(picture_of(*wide)))
        self.assertIn("dev 63", written(picture_of(*wide[:5])))
        self.assertIn("answer to 1", written(picture_of(*wide[:4], SEND, WAIT_ANSWER, TICK)))
        self.assertIn("ans 1", written(picture_of(*wide[:4], SEND, WAIT_ANSWER)))

    def test_a_log_name_is_no_markup(self):
        svg = next(Picture(tell("\n".join((A, B, START_A)).encode())[1], "<b>&amp;.log").painted())
        self.assertIn("<b>&amp;.log: a run of 1 call", written(svg))
