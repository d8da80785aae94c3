"""What a number of refusal says: the same words in C, in Rust, at the desk and on the pages, and the same order wherever order counts."""

import re
import unittest
from pathlib import Path

from desk.log.refusals import MEANINGS

HOME = Path(__file__).resolve().parents[2]


def text_of(*names):
    return HOME.joinpath(*names).read_text(encoding="utf-8")


def header():
    """The one list, of include/elvomike/monitor.h: its numbers in the order that counts where several apply, and the texts by number."""
    text = text_of("include", "elvomike", "monitor.h")
    listed = re.search(r"enum monitor_refusal \{(.*?)\};", text, re.S)[1]
    numbers = {name: int(number) for name, number in re.findall(r"(MONITOR_\w+) = (\d+)", listed)}
    told = re.search(r"monitor_refusal_text\(unsigned number\)\n\{(.*?)\n\}", text, re.S)[1]
    texts = {numbers[name]: said for name, said in re.findall(r'case (\w+): return "([^"]*)";', told)}
    return [number for number in numbers.values() if number], {number: said for number, said in texts.items() if number}


def rust():
    """Those of the Rust crate, by number."""
    text = text_of("bindings", "rust", "src", "refusal.rs")
    numbers = {name: int(number) for name, number in re.findall(r"Refusal::(\w+) => (\d+),", text)}
    return {numbers[name]: said for name, said in re.findall(r'Refusal::(\w+) => "([^"]*)",', text)}


def rows(page, heading):
    """The rows of the first table behind a heading of a page that begin with a number: the number, and the other cells."""
    part = text_of("docs", page).split(f"\n## {heading}", 1)[1].split("\n## ", 1)[0]
    cells = [re.split(r" *\| *", line.strip("| ")) for line in part.split("\n") if line.startswith("|")]
    return [(int(row[0]), row[1:]) for row in cells if row[0].isdigit()]


class RefusalsTest(unittest.TestCase):
    """One refusal, one text."""

    def setUp(self):
        self.order, self.texts = header()

    def test_each_number_has_a_text(self):
        self.assertEqual(sorted(self.order), sorted(self.texts))
        self.assertEqual(sorted(self.order), [*range(1, 14), 19, 20])

    def test_rust_says_the_same(self):
        self.assertEqual(rust(), self.texts)

    def test_the_desk_says_the_same(self):
        self.assertEqual(MEANINGS, self.texts)

    def test_the_owners_page_says_the_same(self):
        self.assertEqual({number: cells[0] for number, cells in rows("OWNERS.md", "What a refusal means")}, self.texts)

    def test_the_logs_page_says_the_same_behind_the_calls_and_in_order(self):
        told = rows("LOG.md", "4. Every refusal")
        self.assertEqual([number for number, _ in told], self.order)
        for number, cells in told:
            with self.subTest(number=number):
                self.assertEqual(re.sub(r"^[0-9A-D, to]+: |[;,:] .*", "", cells[1]), self.texts[number])

    def test_the_specification_has_the_same_order(self):
        self.assertEqual([number for number, _ in rows("MONITOR.md", "7. Refusals")], self.order)


if __name__ == "__main__":
    unittest.main()
