"""./explain --statistics: each number beside one counted by hand, and over drawn runs beside a plain second count."""

import json
import os
import subprocess
import tempfile
import unittest

from tests import stations
from tests.explain.room import HOME
from tests.explain.test_program import entry, line

READER = [entry(5, 2, "READ"), entry(3, 1, "SPELL")]


class StatisticsTest(unittest.TestCase):
    def explained(self, log, *words):
        """What the command says of a log's bytes."""
        with tempfile.NamedTemporaryFile() as file:
            file.write(log)
            file.flush()
            return subprocess.run([os.path.join(HOME, "explain"), *words, file.name], capture_output=True, text=True, check=True).stdout

    def parts(self, log):
        return json.loads(self.explained(log, "--json", "--statistics"))

    def test_by_hand(self):
        log = "".join([*READER, line(6, 1), line(6, 2),             # lines 3 and 4; READ runs
                       line(1, 2, 0, 1), line(1, 2, 0, 2), line(1, 2),  # two sends, and no buffer for a third
                       line(9), line(2, 1), line(9),                  # a tick of READ's; it waits from line 9 on; a tick of SPELL's
                       line(3), line(4, 1), line(9), line(7, 9)]).encode()
        told = " ".join(self.explained(log, "--statistics").split())
        for piece in ("Statistics calls send: 3, 1 of them refused.", "tick: 3.", "stop: 1, 1 of them refused.",
                      "5, the sender has no free buffer: READ once.", "4, there is no such process: from outside once.",
                      "slices 3 ticks: READ 67 in 100, SPELL 33 in 100.", "waits READ once, 1 tick together, the longest 1 tick from line 9 on.",
                      "answers SPELL answered 1 message, after 2 ticks.",
                      "buffers READ used all its 2 buffers at once. SPELL used no buffer of its 1."):
            self.assertIn(piece, told)
        read, spell = self.parts(log)["processes"]
        self.assertEqual((read["slices"], spell["slices"]), (2, 1))
        self.assertEqual(read["waits"], {"count": 1, "ticks": 1, "longest": 1, "line": 9})
        self.assertEqual(spell["answers"], {"count": 1, "median": 2, "longest": 2})
        self.assertEqual((read["buffers"], spell["buffers"]), ({"owned": 2, "most": 2}, {"owned": 1, "most": 0}))

    def test_a_wait_that_lasts(self):
        log = "".join([*READER, line(6, 1), line(3), *[line(9)] * 5]).encode()
        self.assertEqual(self.parts(log)["processes"][0]["waits"], {"count": 1, "ticks": 5, "longest": 5, "line": 4})

    def test_drawn_runs_beside_a_second_count(self):
        for seed in (1, 2):
            log = stations.calls_of(1500, seed=seed)
            objects = [json.loads(row) for row in self.explained(log, "--json").splitlines()]
            found, calls = self.parts(log), [one for one in objects if one["is"] == "call"]
            self.assertEqual(sum(one["count"] for one in found["calls"]), len(calls))
            self.assertEqual(sum(one["count"] for one in found["refusals"]), sum(one["answer"]["number"] > 0 for one in calls))
            self.assertEqual(found["ticks"], sum(one["call"] == "tick" and not one["answer"]["number"] for one in calls))
            for process in found["processes"]:
                self.second_count(process, calls)

    def second_count(self, process, calls):
        """The numbers of one process, counted again from the objects of the calls."""
        name, runs, slices, most, ages = process["process"], None, 0, 0, []
        held = {}
        for one in calls:
            slices += one["call"] == "tick" and runs == name
            if one["call"] == "answer" and not one["answer"]["number"] and one["caller"] == name and one["parts"]["buffer"] in held:
                ages.append(held[one["parts"]["buffer"]])
            runs = one["answer"].get("current", runs) if not one["answer"]["number"] else runs
            talks = [talk for standing in one["open"].values() for talk in standing]
            held = {talk["buffer"]: talk["age"] for talk in one["open"]["held"] if talk["receiver"] == name}
            most = max(most, sum(talk["owner"] == name for talk in talks))
        self.assertEqual((process["slices"], process["buffers"]["most"]), (slices, most), name)
        middle = sorted(ages)[(len(ages) - 1) // 2] if ages else None
        self.assertEqual(process["answers"], {"count": len(ages), "median": middle, "longest": max(ages, default=None)}, name)

    def test_nothing_answered(self):
        self.assertIn("No call was answered.", self.explained(READER[0].encode(), "--statistics"))


if __name__ == "__main__":
    unittest.main()
