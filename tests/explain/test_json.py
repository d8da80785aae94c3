"""./explain --json: every line of every example and vector is as docs/explain.schema.json says; and what stands in them."""

import copy
import json
import os
import re
import subprocess
import unittest

from tests.compare.room import joined, woven
from tests.explain.room import EXAMPLES, HOME, VECTORS, Room, read
from tests.explain.schema import Schema, Unfit

SCHEMA = Schema(os.path.join(HOME, "docs", "explain.schema.json"))
SPELLERS = os.path.join(HOME, "examples", "dictionary", "spellers.log")
SHOPS = [os.path.join(HOME, "examples", "shops", name) for name in ("one.log", "two.log")]


def explained(*words, log=None):
    """What the command itself says of a log, each line as an object."""
    run = subprocess.run([os.path.join(HOME, "explain"), "--json", *words], input=log, capture_output=True, check=True)
    return [json.loads(line) for line in run.stdout.splitlines()]


class SchemaTest(unittest.TestCase):
    def held(self, objects):
        """Objects that are as the schema says; gives them."""
        for one in objects:
            SCHEMA.hold(one)
        return objects

    def test_every_example(self):
        kinds = set()
        for path in [*EXAMPLES, *SHOPS]:
            kinds |= {one["is"] for one in self.held(explained(path))}
            self.held(explained("--statistics", path))
        kinds |= {one["is"] for one in self.held(explained("--semaphores", "1", SPELLERS))}
        self.assertEqual(kinds, {"layout", "call", "no call", "refused layout"})

    def test_vectors(self):
        with Room() as room:
            room.build()
            for path in VECTORS[::12]:
                run = room.run("explain", "--json", path)
                self.held([json.loads(line) for line in run.stdout.splitlines()])

    def test_a_stations_own_answers(self):
        found = [one for path in SHOPS for one in self.held(explained("--answers", path)) if one.get("found")]
        self.assertIn("A buffer is lost", " ".join(sentence for one in found for sentence in one["found"]))
        rows = woven(read(EXAMPLES[-1]))
        rows = [row for place, row in enumerate(rows) if place != len(rows) - 1]
        self.assertEqual(self.held(explained("--answers", log=joined(rows)))[-1]["is"], "unanswered" if rows[-1][:1] != b">" else "call")

    def test_the_page_has_every_part(self):
        page = read(os.path.join(HOME, "docs", "JSON.md")).decode()
        names = {name for part in SCHEMA.whole["$defs"].values() for name in part.get("properties", ())}
        self.assertEqual([name for name in sorted(names) if f"`{name}`" not in page], [])
        examples = re.findall(r"^    (\{.*(?:\n      .*)*)", page, re.M)
        self.assertGreater(len(examples), 1)
        for example in examples:
            SCHEMA.hold(json.loads(example))

    def test_the_schema_refuses_others(self):
        one = explained(os.path.join(HOME, "examples", "worked.log"))[4]
        SCHEMA.hold(one)
        for change in (lambda o: o.pop("line"), lambda o: o.update(more=1), lambda o: o.update(line=0), lambda o: o.update(woken=[1]),
                       lambda o: o["answer"].update(kind=70000), lambda o: o["answer"]["words"].pop(), lambda o: o["open"].pop("held"),
                       lambda o: o.update({"is": "layout"}), lambda o: o["parts"].update(words="1111")):
            other = copy.deepcopy(one)
            change(other)
            with self.assertRaises(Unfit):
                SCHEMA.hold(other)


class ObjectsTest(unittest.TestCase):
    def test_a_call(self):
        objects = explained(os.path.join(HOME, "examples", "worked.log"))
        self.assertEqual(objects[0], {"is": "layout", "line": 1, "process": 1, "name": "A", "priority": 5, "buffers": [1]})
        answer = next(one for one in objects if one.get("call") == "answer")
        self.assertEqual((answer["caller"], answer["parts"], answer["woken"], answer["entered"]),
                         ("B", {"buffer": 1, "words": [0, 10, 0, 0]}, ["A"], ["A"]))
        self.assertEqual(answer["open"], {"queued": [], "held": [], "answered": [{"buffer": 1, "owner": "A", "receiver": "B", "age": 0}], "orphaned": []})
        self.assertEqual(objects[-1]["answer"]["rows"], [{"buffer": 1, "owner": "A", "receiver": "B", "standing": "answered", "age": 0}])

    def test_chosen_lines(self):
        path = os.path.join(HOME, "examples", "station.log")
        self.assertEqual({one["line"] for one in explained("--lines", "10-12", path)}, {10, 11, 12})
        self.assertTrue(all(one["answer"]["number"] for one in explained("--refused", path)))

    def test_a_refused_layout_and_lines_that_are_no_calls(self):
        *_, last = explained(os.path.join(HOME, "examples", "refused-layout.log"))
        self.assertEqual((last["is"], last["number"]), ("refused layout", 11))
        self.assertTrue(last["reasons"])
        faults = [one for one in explained(os.path.join(HOME, "examples", "mistyped.log")) if one["is"] == "no call"]
        self.assertTrue(faults and all(one["fault"] for one in faults))

    def test_options_that_dont_go_together(self):
        for words, sentence in ((("--json", "--screen"), "--screen doesn't go with --json"), (("--json", "--summary"), "--summary doesn't go with --json"),
                                (("--statistics", "--lines", "2"), "--lines doesn't go with --statistics, which are of the whole log"),
                                (("--screen", "--vcd", "x"), "--screen doesn't go with --vcd")):
            run = subprocess.run([os.path.join(HOME, "explain"), *words, EXAMPLES[0]], capture_output=True, text=True, check=False)
            self.assertEqual((run.returncode, run.stdout, run.stderr), (2, "", f"explain: {sentence}; ./explain --help says how it is used.\n"))


if __name__ == "__main__":
    unittest.main()
