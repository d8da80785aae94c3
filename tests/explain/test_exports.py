"""./explain --trace and --vcd: each is read back by a parser of its own and says what the run did; vcd2fst, GTKWave's own reader, takes the
signals too."""

import json
import os
import shutil
import subprocess
import tempfile
import unittest

from tests import stations
from tests.explain.room import EXAMPLES, HOME

STATION = os.path.join(HOME, "examples", "station.log")
ROW_OF_OUTSIDE, TICK = 0, 1000
WANTED = {"M": {"args"}, "X": {"dur"}, "s": {"id", "cat"}, "f": {"id", "cat", "bp"}, "i": {"s"}}  # what each kind of event has besides


def explained(*words):
    """Runs the command."""
    return subprocess.run([os.path.join(HOME, "explain"), *words], stdin=subprocess.DEVNULL, capture_output=True, text=True, check=False)


class FilesTest(unittest.TestCase):
    def setUp(self):
        above = tempfile.TemporaryDirectory()
        self.addCleanup(above.cleanup)
        self.folder = above.name
        self.drawn = os.path.join(self.folder, "drawn.log")
        with open(self.drawn, "wb") as log:
            log.write(stations.calls_of(800, seed=7))

    def written(self, option, name, log):
        """A file that the command writes of a log, as text; and the log's calls as objects."""
        out = os.path.join(self.folder, name)
        run = explained(option, out, "--summary", log)
        self.assertEqual((run.returncode, run.stderr), (0, ""))
        with open(out, encoding="utf-8") as file:
            text = file.read()
        objects = [json.loads(row) for row in explained("--json", log).stdout.splitlines()]
        return text, objects


class OutTest(FilesTest):
    def test_files_are_never_destroyed(self):
        for option, name in (("--trace", "a.json"), ("--vcd", "a.vcd")):
            out = os.path.join(self.folder, name)
            with open(out, "w", encoding="utf-8") as file:
                file.write("{}")
            run = explained(option, out, STATION)
            self.assertEqual(run.returncode, 2)
            self.assertIn("so it is left alone", run.stderr)
            os.remove(out)
            for _ in range(2):
                self.assertEqual(explained(option, out, "--summary", STATION).returncode, 0)
            with open(out, encoding="utf-8") as file:
                self.assertEqual(file.read(), explained(option, "-", STATION).stdout)


class TraceTest(FilesTest):
    def events(self, log):
        """The events of a log's trace, by their letters, and its calls."""
        text, objects = self.written("--trace", "run.json", log)
        whole = json.loads(text)
        self.assertEqual(set(whole), {"otherData", "displayTimeUnit", "traceEvents"})
        found = {letter: [] for letter in "MXsfi"}
        for event in whole["traceEvents"]:
            self.assertTrue({"ph", "name", "pid", "tid", "ts"} | WANTED[event["ph"]] <= set(event), event)
            self.assertTrue(event.get("dur", 0) >= 0 and event.get("s", "t") in "gpt" and event["ts"] >= 0, event)
            found[event["ph"]].append(event)
        names = {event["tid"]: event["args"]["name"] for event in found["M"] if event["name"] == "thread_name"}
        return found, names, [one for one in objects if one["is"] == "call"]

    def test_states_are_slices_without_gaps(self):
        for log in (STATION, self.drawn):
            found, names, calls = self.events(log)
            ticks = sum(one["call"] == "tick" and not one["answer"]["number"] for one in calls)
            for row in range(1, len(names)):
                slices = sorted((event["ts"], event["dur"], event["name"]) for event in found["X"] if event["tid"] == row)
                self.assertTrue(all(abs(one[0] + one[1] - two[0]) < 0.002 and one[2] != two[2] for one, two in zip(slices, slices[1:])))
                self.assertEqual(slices[0][0], 0)
                self.assertAlmostEqual(slices[-1][0] + slices[-1][1], TICK * (ticks + 1), 2)

    def test_who_runs(self):
        found, names, calls = self.events(self.drawn)
        runs = {event["args"].get("line"): names[event["tid"]] for event in found["X"] if event["name"].startswith("runs")}
        before, wanted = None, {}
        for one in calls:
            now = one["answer"]["current"] if not one["answer"]["number"] else before
            if now != before and now:
                wanted[one["line"]] = now
            before = now
        self.assertTrue(wanted)
        self.assertEqual(runs, wanted)

    def test_flows_go_there_and_back(self):
        for log in (STATION, self.drawn):
            found, names, calls = self.events(log)
            sent = [(one["line"], one["caller"]) for one in calls if one["call"] == "send" and not one["answer"]["number"]]
            left = {event["id"]: event for event in found["s"]}
            self.assertEqual(len(left), len(found["s"]))
            self.assertEqual([(event["args"]["line"], names[event["tid"]]) for event in found["s"] if event["cat"] == "message"], sent)
            taken = [(one["line"], one["caller"]) for one in calls
                     if one["call"] in ("wait for an event", "wait for an answer") and one["answer"].get("kind") in (1, 2)]
            self.assertEqual([(event["args"]["line"], names[event["tid"]]) for event in found["f"]], taken)
            for event in found["f"]:
                start = left[event["id"]]
                self.assertLess(start["ts"], event["ts"])
                self.assertEqual((event["bp"], event["cat"], event["name"]), ("e", start["cat"], start["name"]))
            self.in_slices(found)

    def in_slices(self, found):
        """Each end of a flow lies in a slice of its row, by which the format's readers draw it."""
        for event in [*found["s"], *found["f"]]:
            self.assertTrue(any(one["tid"] == event["tid"] and one["ts"] <= event["ts"] <= one["ts"] + one["dur"] for one in found["X"]), event)

    def test_ticks_are_time_and_refusals_instants(self):
        found, names, calls = self.events(self.drawn)
        ticks = [event for event in found["i"] if event["cat"] == "tick"]
        self.assertEqual([event["ts"] for event in ticks], [TICK * (place + 1) for place in range(len(ticks))])
        refused = [(one["line"], one["caller"] or names[ROW_OF_OUTSIDE]) for one in calls if one["answer"]["number"]]
        self.assertEqual([(event["args"]["line"], names[event["tid"]]) for event in found["i"] if event["cat"] == "refusal"], refused)

    def test_every_example(self):
        for log in EXAMPLES:
            run = explained("--trace", "-", log)
            if "nothing to write" not in run.stderr:
                self.assertTrue(json.loads(run.stdout)["traceEvents"], log)


class Dump:
    """A value change dump, read: its signals by their paths, and their values by time."""

    def __init__(self, text):
        self.signals, self.values, self.unit = {}, {}, None
        head, _, body = text.partition("$enddefinitions $end\n")
        self.read_head(head.split())
        self.read_body(body.split())

    def read_head(self, words):
        """The declarations, each from its word to $end."""
        scope = []
        while words:
            kind, end = words[0], words.index("$end")
            inner, words = words[1:end], words[end + 1:]
            if kind == "$scope":
                scope.append(inner[1])
            elif kind == "$upscope":
                scope.pop()
            elif kind == "$var":
                self.signals[inner[2]] = (".".join([*scope, inner[3]]), inner[0], int(inner[1]))
            elif kind == "$comment" and inner[:3] == ["A", "tick", "is"]:
                self.unit = int(inner[3])
        assert not scope

    def read_body(self, words):
        """The times and values."""
        now, words = None, iter(words)
        for word in words:
            if word[0] == "#":
                assert now is None or int(word[1:]) > now
                now = int(word[1:])
            elif word[0] in "bs":
                self.put(now, next(words), word)
            elif word[0] in "01":
                self.put(now, word[1:], word[0])
            else:
                assert word in ("$dumpvars", "$end"), word
        self.end = now

    def put(self, now, code, word):
        """A value of a signal that there is, of its width."""
        path, kind, width = self.signals[code]
        assert kind == {"b": "reg", "s": "string"}.get(word[0], "wire")
        assert kind != "reg" or len(word) == width + 1
        value = word[1:] if kind == "string" else int(word.lstrip("b"), 2)
        self.values.setdefault(path, {})[now] = value

    def at(self, path, when):
        """A signal's value at a time."""
        return self.values[path][max(time for time in self.values[path] if time <= when)]


class SignalsTest(FilesTest):
    def test_who_runs_and_how_long_the_queues_are(self):
        for log in (STATION, self.drawn):
            text, objects = self.written("--vcd", "run.vcd", log)
            dump, calls = Dump(text), [one for one in objects if one["is"] == "call"]
            names = [one["name"] for one in objects if one["is"] == "layout"]
            ticks, order, current = 0, 1, None
            for one in calls:
                done = not one["answer"]["number"]
                ticks, order = (ticks + 1, 0) if done and one["call"] == "tick" else (ticks, order)
                current = one["answer"]["current"] if done else current
                when = dump.unit * ticks + order
                for name in names:
                    self.assertEqual(dump.at(f"station.{name}.runs", when), int(name == current), (one["line"], name))
                    queue = sum((talk["receiver"], "queued") == (name, standing) or (talk["owner"], "answered") == (name, standing)
                                for standing, talks in one["open"].items() for talk in talks)
                    self.assertEqual(dump.at(f"station.{name}.queue", when), queue, (one["line"], name))
                order += 1
            self.assertEqual(dump.end, dump.unit * (ticks + 1))
            self.assertEqual(len(dump.values["station.tick"]), ticks + 1)

    def test_many_calls_in_a_tick(self):
        path = os.path.join(self.folder, "many.log")
        with open(self.drawn, "rb") as log, open(path, "wb") as many:
            many.writelines(row for row in log if not row.startswith(b"09"))
        self.assertEqual(Dump(self.written("--vcd", "many.vcd", path)[0]).unit, 1000)

    @unittest.skipUnless(shutil.which("vcd2fst"), "there is no vcd2fst, of Debian's package gtkwave")
    def test_gtkwave_reads_it(self):
        for number, log in enumerate([*EXAMPLES, self.drawn]):
            out = os.path.join(self.folder, f"{number}.vcd")
            run = explained("--vcd", out, "--summary", log)
            if "nothing to write" in run.stderr:
                continue
            made = subprocess.run(["vcd2fst", out, out + ".fst"], capture_output=True, text=True, check=False)
            self.assertEqual((made.returncode, made.stderr), (0, ""), log)
            back = subprocess.run(["fst2vcd", out + ".fst"], capture_output=True, text=True, check=True).stdout
            with open(out, encoding="utf-8") as file:
                ours = Dump(file.read())
            theirs = Dump(back[back.index("$scope"):])
            self.assertEqual({path: changes(ours, path) for path in ours.values if not path.endswith("doing")},
                             {path: changes(theirs, path) for path in theirs.values if not path.endswith("doing")})


def changes(dump, path):
    """The values of a signal, each at its time, without those that change nothing."""
    found, last = [], None
    for when, value in sorted(dump.values[path].items()):
        if value != last:
            found.append((when, value))
        last = value
    return found


if __name__ == "__main__":
    unittest.main()
