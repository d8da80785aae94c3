"""The archive through the outside vectors, and beside the comparison written a second time."""

import json
import os
import random
import unittest

from tests.compare.archive import HOME, Case, call, second

VECTORS = os.path.join(HOME, "tests", "vectors", "compare.json")
VECTOR_COUNT = 150
BLOCK = 240  # the archive looks at so many bytes at once


def vectors():
    """The outside vectors, one a line."""
    with open(VECTORS, encoding="utf-8") as file:
        return [json.loads(line) for line in file if line.strip()]


def any_line(draw):
    """A line without its end: short, long, around a block's size, or empty."""
    size = draw.choice([0, 1, 2, 26, 30, draw.randint(0, 40), BLOCK - 1, BLOCK, BLOCK + 1, draw.randint(0, 3 * BLOCK)])
    return bytes(draw.choice(b"0A\r\0\xFF") for _ in range(size)) if draw.random() < 0.2 else b"0" * size


def any_log(draw):
    """The lines of a log."""
    return [any_line(draw) for _ in range(draw.choice([0, 1, 2, 5, 30, 100]))]


def changed(lines, draw):
    """Lines that agree with others for the most part."""
    lines = list(lines)
    for _ in range(draw.choice([0, 0, 1, 1, 2, 10])):
        place = draw.randint(0, len(lines))
        if draw.random() < 0.7 and place < len(lines):
            at = draw.randint(0, len(lines[place]))
            lines[place] = lines[place][:at] + b"X" + lines[place][at + 1:]
        elif draw.random() < 0.5:
            lines.insert(place, any_line(draw))
        else:
            del lines[place:place + draw.choice([1, 1, 50])]
    return lines


def ended(lines, draw):
    """Lines as a log, whose last one may lack its end."""
    return b"\n".join(lines) + (b"\n" if lines and draw.random() < 0.5 else b"")


def any_case(draw):
    """Two logs, most often alike, and a room that is enough or isn't."""
    lines = any_log(draw)
    one, two = ended(lines, draw), ended(changed(lines, draw), draw)
    words = draw.choice([0, 1, 2, 5, 40, 200])
    room = [draw.getrandbits(64) for _ in range(words)]
    return Case(*draw.choice([(one, two), (two, one)]), room, draw.choice([0, 1, 2, 7, 50, 10 ** 6]))


class VectorsTest(unittest.TestCase):
    def test_there_are_all(self):
        self.assertEqual(len(vectors()), VECTOR_COUNT)

    def test_every_vector_agrees(self):
        cases = vectors()
        self.assertTrue(cases, "the file of vectors is empty")
        answers = call([Case(case["one"].encode(), case["two"].encode(), case["room"], 0) for case in cases])
        self.assertEqual(len(answers), len(cases))
        for place, (case, answer) in enumerate(zip(cases, answers), 1):
            with self.subTest(vector=place):
                self.assertEqual((answer.number, answer.count, answer.room), (case["number"], case["count"], case["room_after"]))
                self.assertEqual((answer.log, answer.start), (case["rest_of"], case["rest_start"]))
                log = (case["one"], case["two"])[answer.log - 1]
                self.assertEqual((log[answer.start:], len(log)), (case["rest"], case["rest_end"]))


class SecondTest(unittest.TestCase):
    def holds(self, cases):
        answers = call(cases)
        self.assertEqual(len(answers), len(cases))
        for case, answer in zip(cases, answers):
            self.assertEqual(answer, second(case), case)
        return answers

    def test_drawn_logs(self):
        draw = random.Random(1)
        answers = self.holds([any_case(draw) for _ in range(6000)])
        self.assertTrue({(0, 1), (0, 2), (14, 1), (14, 2)} <= {(answer.number, answer.log) for answer in answers})

    def test_every_length_around_a_block(self):
        cases = []
        for size in range(3 * BLOCK):
            log = (b"0" * 26 + b"\n") * 40
            other = log[:size] + b"X" + log[size + 1:]
            cases += [Case(log[:size], log, [0] * 50, size), Case(log, other, [0] * 50, size)]
            cases += [Case(log[:size], log[:size] + b"\n", [0], 1)]
        self.holds(cases)

    def test_logs_without_line_ends_and_of_line_ends_alone(self):
        logs = [b"", b"\n", b"\n\n", b"0", b"0\n", b"\n0", b"0" * 1000, b"\n" * 1000, b"\n" * 255, b"\n" * 256, b"\r\n"]
        logs += [b"0" * (BLOCK - 1) + b"\n"]
        rooms, lines = (0, 1, 999, 1000), (0, 1, 999)
        self.holds([Case(one, two, [7] * room, count) for one in logs for two in logs for room in rooms for count in lines])


if __name__ == "__main__":
    unittest.main()
