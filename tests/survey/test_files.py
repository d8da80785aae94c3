"""Files that are no logs, or none that can be judged: each is told with its reason and counted apart; and what survey.txt sets."""

import os
import shutil
import subprocess
import unittest

from desk.log.layout import Outfit
from tests.compare.room import MARK, joined, woven
from tests.explain.room import HOME, read
from tests.explain.test_program import entry, line
from tests.survey.planting import FolderTest, make, survey

WORKED = read(os.path.join(HOME, "examples", "worked.log"))
SPELLERS = os.path.join(HOME, "examples", "dictionary", "spellers.log")
RIGHT = woven(WORKED)
NO_ANSWERS = "it carries no answers, which stand behind their calls and are marked with '> '"


class ForeignTest(FolderTest):
    def test_files_that_are_no_logs(self):
        right = joined(RIGHT)
        for name, data, reason in (
                ("crlf", right.replace(b"\n", b"\r\n"), "the lines end in CR LF, as DOS and Windows write them"),
                ("empty", b"", "it is empty"),
                ("letter", b"Dear Sir,\nthe speller stops.\n> yours\n", "it is no log: none of its lines is a call or a layout line"),
                ("binary", bytes(range(256)) * 3, "the file looks like a binary one"),
                ("wide", right.decode().encode("utf-16"), "the log is written in UTF-16, two bytes a letter"),
                ("marked", b"\xef\xbb\xbf" + right, "the log begins with a byte order mark, as some editors write it"),
                ("answers", b"".join(row[2:] + b"\n" for row in RIGHT if row.startswith(MARK)),
                 "the lines look like what ./replay writes, answers and no calls"),
                ("calls", WORKED, NO_ANSWERS),
                ("layout", joined(RIGHT[:2]), "it has no call that is answered"),
                ("refused", joined(woven(read(os.path.join(HOME, "examples", "refused-layout.log")))),
                 "its layout is refused, so that no call was served"),
                ("remark", joined([b"# Miller, May", *RIGHT]),
                 "line 1 is no call and has no answer, so it can't be told whose it is: it has blanks in it; the digits stand without"),
                ("laid", joined([RIGHT[0].lower() + b" ", *RIGHT[1:]]),
                 "line 1 looks like a layout line and is none: it has blanks in it; the digits stand without")):
            with self.subTest(name=name):
                self.put("one.log", data)
                self.put("two.log", right)
                found = self.judged()
                self.assertEqual([log["reason"] for log in found["logs"]], [reason, None])
                self.assertEqual((found["watched"]["judged"], found["watched"]["unjudged"], found["watched"]["calls"]), (1, 1, 7))
                self.assertIn(f"one.log not judged: {reason}.", " ".join(survey(self.folder)[1].split()))

    def test_what_is_torn_at_its_end(self):
        right = joined(RIGHT)
        sizes = range(right.index(MARK), len(right) + 1)
        for size in sizes:
            self.put(f"{size}.log", right[:size])
        logs = {int(os.path.basename(log["name"])[:-4]): log for log in self.judged()["logs"]}
        for size in sizes:
            log, (calls, torn) = logs[size], whole_calls(right[:size])
            self.assertEqual((log["strayed"], log["kind"]), (None, None), size)
            if calls:
                self.assertEqual((log["reason"], log["calls"], log["torn"]), (None, calls, torn), size)
            else:
                self.assertIn(log["reason"], ("it has no call that is answered", NO_ANSWERS), size)

    def test_what_differs_isnt_torn(self):
        right = joined(RIGHT)
        self.put("torn.log", right[:-3] + b"1")
        log, = self.judged()["logs"]
        self.assertEqual((log["strayed"], log["torn"]), (len(RIGHT), False))
        self.put("torn.log", joined(RIGHT[:5] + RIGHT[6:]))
        self.assertEqual(self.judged()["logs"][0]["strayed"], 6)

    def test_files_that_cant_be_read(self):
        os.mkfifo(self.place("pipe"))
        os.symlink(self.place("nowhere"), self.place("link"))
        self.put(".hidden", b"")
        self.assertEqual(self.reasons(), {"pipe": "it is no file", "link": "it can't be read: No such file or directory"})

    def test_copies_count_once(self):
        make(self.folder, 1, 2, 200)
        shutil.copy(self.place("0001.log"), self.place("0003.log"))
        self.assertEqual(self.reasons(), {"0001.log": None, "0002.log": None, "0003.log": f"it is a copy of {self.place('0001.log')}"})
        self.assertEqual(survey("--csv", self.place("0001.log"), self.place("0001.log"))[1].splitlines()[-1].rsplit(",", 1)[1], "it is named twice")

    def test_words_that_name_nothing(self):
        for words, sentence in (((), "no log or folder was named; ./survey --help says how it is used."),
                                ((self.place("none"),), f"there is no file or folder '{self.place('none')}'."),
                                ((self.folder,), f"there is no log in '{self.folder}'."),
                                (("--rates", "--json", self.folder), "--rates doesn't go with --json, which has them; ./survey --help says how it is "
                                                                     "used."),
                                (("--by", "ticks", self.folder), "--by goes with --picture; ./survey --help says how it is used.")):
            self.assertEqual(survey(*words), (2, "", f"survey: {sentence}\n"))


def whole_calls(log):
    """How many calls of a beginning of the worked log are answered whole, and whether another is begun; the last line may lack its end."""
    rows = log.split(b"\n")
    rows = rows[:-1] if rows[-1] == b"" else rows
    count = len(rows) if rows[-1] == RIGHT[len(rows) - 1] else len(rows) - 1
    heads = [place for place, row in enumerate(RIGHT[2:], 2) if not row.startswith(MARK)] + [len(RIGHT)]
    ends = [end for end in heads[1:] if end <= count]
    return len(ends), bool(len(rows) > (ends[-1] if ends else 2))


class SettingsTest(FolderTest):
    def test_semaphores_and_edition(self):
        shutil.copy(SPELLERS, self.place("spellers.log"))
        kept = "".join([entry(5, 1, "READ"), entry(4, 1, "SPELL"), line(6, 1), line(10, 7), line(5, 7)]).encode()
        self.put("kept.log", joined(woven(kept, outfit=Outfit(1, ()))))
        reasons = self.reasons()
        self.assertIn("in line 22 semaphore 1 is lowered, so the station has semaphores;", reasons["spellers.log"])
        self.assertIn("an interrupt was kept for device 7, so the station is of the second edition;", reasons["kept.log"])
        self.put("survey.txt", "# of this folder\nspell*.log: semaphores 1\nkept.log: edition 1 # since May\n")
        self.assertEqual(self.reasons(), {"spellers.log": None, "kept.log": None})
        self.assertIn("second edition", self.reasons("--edition", "0")["kept.log"])

    def test_a_station_that_runs(self):
        for seed in ("1", "2"):
            words = [os.path.join(HOME, "station"), "--seed", seed, "--cleans", "20", "--log", self.place(f"{seed}.log"), "examples/page.txt"]
            subprocess.run(words, cwd=HOME, stdin=subprocess.DEVNULL, capture_output=True, check=True)
        self.assertTrue(all("so the station has semaphores" in reason for reason in self.reasons().values()))
        self.put("survey.txt", "edition 1\nsemaphores 1,1\n")
        found = self.judged()
        self.assertEqual([(log["reason"], log["strayed"]) for log in found["logs"]], [(None, None)] * 2)
        self.assertGreater(found["watched"]["conversations"], 100)

    def test_shops_and_months(self):
        self.put("survey.txt", "\ufeffshop Miller & Daughters\nmonth 2025-12\n")
        for name in ("one.log", "york/2026-03.log", "york/b.log"):
            self.put(name, joined([*RIGHT, line(9).strip().encode(), MARK + b"00000000000001" + b"0" * 16][:len(RIGHT) - 2 * len(name) % 4]))
        self.put("york/survey.txt", "shop Pratt\nb.log: month 2026-04\n")
        found = {os.path.basename(log["name"]): (log["shop"], log["month"]) for log in self.judged()["logs"]}
        self.assertEqual(found, {"one.log": ("Miller & Daughters", "2025-12"), "2026-03.log": ("Pratt", "2025-12"), "b.log": ("Pratt", "2026-04")})
        os.remove(self.place("survey.txt"))
        os.remove(self.place("york/survey.txt"))
        found = {os.path.basename(log["name"]): (log["shop"], log["month"]) for log in self.judged()["logs"]}
        self.assertEqual(found["2026-03.log"], ("york", "2026-03"))
        self.assertEqual(found["one.log"], (os.path.basename(self.folder), None))
        found = self.judged("--shop", "Ouse Press", "--month", "2026-05")["logs"]
        self.assertEqual({(log["shop"], log["month"]) for log in found}, {("Ouse Press", "2026-05")})

    def test_what_is_wrong_in_survey_txt(self):
        self.put("one.log", joined(RIGHT))
        path = self.place("survey.txt")
        for text, sentence in (("editon 1", "line 1: there is no setting 'editon'; there are edition, semaphores, shop and month"),
                               ("\n\nedition 2", "line 3: an edition is a number from 0 to 1"), ("shop", "line 1: shop wants something behind it"),
                               ("semaphores 1,x", "line 1: a counter is a number from 0 to 32767"), ("month May", "line 1: a month is given as 2026-03")):
            self.put("survey.txt", text)
            self.assertEqual(survey(self.folder), (2, "", f"survey: '{path}', {sentence}.\n"))
        self.put("survey.txt", b"shop M\xfcller")
        self.assertEqual(survey(self.folder), (2, "", f"survey: '{path}' can't be read: it is no text in UTF-8.\n"))


if __name__ == "__main__":
    unittest.main()
