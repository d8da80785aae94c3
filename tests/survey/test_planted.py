"""Two hundred logs that the second implementation made, with faults planted at known rates: each is told at its line and of its kind."""

import json
import os
import unittest

from desk.compare.command import MOST
from desk.compare.monitor import Run, Strays
from desk.log import lines, woven
from desk.log.fates import FAULTS, Fates
from desk.log.layout import PLAIN, Outfit, entry_of
from desk.log.station import Station
from desk.survey.kinds import ANOTHER, KIND_OF_FAULT
from tests import stations
from tests.compare.room import joined
from tests.compare.room import woven as woven_of
from tests.explain.room import HOME, read
from tests.survey.planting import FolderTest, make, survey

ONE_IN = 500  # sends
LOST = "buffer lost"
TORN = "0200.log"
PICTURE = os.path.join(HOME, "docs", "survey.svg")


def read_alone(path, place, outfit):
    """The kind of what is found at a call by the nine lines, read from the log's beginning without the monitor."""
    entries, fates = [], None
    with open(path, "rb") as log:
        for line in woven.follow(lines.cut(log.read()), outfit):
            if line.call and line.call.number == lines.LAYOUT:
                entries.append(entry_of(line))
            elif line.call and line.answer:
                fates = fates or Fates(Station(entries, outfit))
                fates.take(line)
            if line.place >= place:
                break
    faults = [one.fault for one in fates.found if one.place == place and one.fault in FAULTS]
    return KIND_OF_FAULT[faults[0]] if faults else ANOTHER


class PlantedTest(FolderTest):
    def test_each_at_its_line_and_of_its_kind(self):
        shops = (("leeds", 1, 100, 0, ONE_IN), ("york", 101, 60, 1, ONE_IN), ("hull", 161, 40, 0, 0))
        truths = {}
        for shop, first, logs, edition, faults in shops:
            truths.update({(shop, name): truth for name, truth in make(self.place(shop), first, logs, 600, edition, faults).items()})
        for shop, text in (("leeds", "shop Miller & Daughters, Leeds\n"), ("york", "edition 1\nshop Pratt, York\n"), ("hull", "shop Ouse Press, Hull\n")):
            self.put(f"{shop}/survey.txt", text)
        truths["hull", TORN] = self.torn(self.place("hull", TORN), truths["hull", TORN])
        foreign = self.put_foreign()
        found = self.judged()
        self.assertEqual({os.path.relpath(log["name"], self.folder): log["reason"] for log in found["logs"] if log["reason"]}, foreign)
        judged = [log for log in found["logs"] if not log["reason"]]
        self.assertEqual((len(judged), len(truths), found["watched"]["unjudged"]), (200, 200, len(foreign)))
        for log in judged:
            shop, name = log["name"].split(os.sep)[-2:]
            self.assertEqual(log["torn"], name == TORN)
            told = tuple(log[part] for part in ("strayed", "kind", "calls", "ticks", "conversations"))
            self.assertEqual((told, log["reason"]), (truths[shop, name], None), log["name"])
            self.assertEqual(log["shop"].rsplit(" ", 1)[1].lower(), shop)
        self.rates(found, truths.values())
        self.referee(found)
        self.assertEqual(survey("--picture", "-", self.folder)[1], read(PICTURE).decode(), "docs/survey.svg is of other logs")

    def torn(self, path, truth):
        """Tears the end off a log's last answer; gives what is then true of it."""
        *_, call, answer = read(path).splitlines()
        os.truncate(path, os.path.getsize(path) - 9)
        self.assertTrue(answer.startswith(b"> 0") and truth.strayed is None)
        return truth._replace(calls=truth.calls - 1, ticks=truth.ticks - call.startswith(b"09"),
                              conversations=truth.conversations - (call.startswith(b"01") and answer.startswith(b"> 00")))

    def put_foreign(self):
        """Puts files among the logs that can't be judged; gives why not, by their names."""
        first = read(self.place("leeds", "0001.log"))
        self.put("leeds/dos.log", first.replace(b"\n", b"\r\n"))
        self.put("york/empty.log", b"")
        self.put("hull/letter.txt", b"Dear editor,\nhere are our logs.\n")
        self.put("hull/picture.png", b"\x89PNG\r\n\x1a\n" + bytes(range(256)))
        return {"leeds/dos.log": "the lines end in CR LF, as DOS and Windows write them", "york/empty.log": "it is empty",
                "hull/letter.txt": "it is no log: none of its lines is a call or a layout line", "hull/picture.png": "the file looks like a binary one"}

    def rates(self, found, truths):
        """The rates are those of the truths together, every kind was planted, and the rate at which buffers were lost is in its interval."""
        conversations, ticks = (sum(getattr(truth, part) for truth in truths) for part in ("conversations", "ticks"))
        for rate in found["rates"][:-1]:
            seen = sum(truth.kind == rate["kind"] for truth in truths)
            self.assertGreater(seen, 2, rate["kind"])
            self.assertEqual((rate["seen"], rate["conversations"]["watched"], rate["ticks"]["watched"]), (seen, conversations, ticks))
        lost = next(rate for rate in found["rates"] if rate["kind"] == LOST)["conversations"]
        self.assertTrue(lost["low"] < 1 / ONE_IN < lost["high"], lost)
        self.assertEqual(found["rates"][-1]["seen"], sum(truth.kind is not None for truth in truths))

    def referee(self, found):
        """The referee of one log says the same: the first line that strays, and what its call shows by the nine lines alone."""
        strayed = [log for log in found["logs"] if log["strayed"]]
        self.assertGreater(len(strayed), 40)
        for log in strayed:
            outfit = Outfit(1 if log["shop"] == "Pratt, York" else 0, ())
            run = Run(log["name"], outfit)
            strays = Strays(run, MOST)
            self.assertEqual(strays.line(strays.numbers[0]), log["strayed"], log["name"])
            self.assertEqual(read_alone(log["name"], run.own[strays.numbers[0]].place, outfit), log["kind"], log["name"])


class SlipsTest(FolderTest):
    """A plain C monitor with a slip in it: every stray of its logs is of the slip's kind, by the monitor's table as by the log alone."""

    def kinds(self, outfit, *slips):
        """The kinds that the strays of some drawn logs of stations with this outfit have."""
        os.makedirs(self.place("built"), exist_ok=True)
        program = stations.build_station(self.place("built"), *slips)
        for seed in range(8):
            log = stations.calls_of(400, outfit, seed=seed)
            self.put(f"logs/{seed}.log", joined(woven_of(log, stations.answers_of(program, log, outfit), outfit)))
        self.put("logs/survey.txt", f"edition {outfit.edition}\nsemaphores {','.join(map(str, outfit.counters)) or 'none'}\n")
        found = json.loads(survey("--json", self.place("logs"))[1])["logs"]
        self.assertEqual({log["reason"] for log in found}, {None})
        for log in (log for log in found if log["strayed"]):
            run = Run(log["name"], outfit)
            self.assertEqual(read_alone(log["name"], run.own[Strays(run, MOST).numbers[0]].place, outfit), log["kind"], log["name"])
        return [log["kind"] for log in found if log["kind"]]

    def test_kinds(self):
        for kinds, *slips in (({"buffer lost"}, stations.FREES_HELD), ({"stranger woken"}, stations.WAKES_ANY),
                              ({"answer withdrawn", "buffer lost"}, stations.DROPS_ANSWERS, stations.WAITS_FOR_FREE)):
            found = self.kinds(PLAIN, *slips) + self.kinds(Outfit(1, (2, 0, 1)), *slips)
            self.assertTrue(set(found) <= kinds, (slips, found))
            self.assertGreater(len(found), 4)


if __name__ == "__main__":
    unittest.main()
