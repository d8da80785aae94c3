"""What is said where a clause fails: the same sentence in C, in Rust and at the desk."""

import re
import unittest
from pathlib import Path

from desk.table.clauses import TEXTS

HOME = Path(__file__).resolve().parents[2]


def header_texts():
    """The sentences of include/elvomike/why.h, by clause."""
    text = (HOME / "include" / "elvomike" / "why.h").read_text(encoding="utf-8")
    numbers = {name: int(number) for name, number in re.findall(r"(MONITOR_\w+) = (\d+)", text)}
    return {numbers[name]: said for name, said in re.findall(r'case (\w+): return "([^"]*)";', text)}


def rust_texts():
    """Those of the Rust crate."""
    text = (HOME / "bindings" / "rust" / "src" / "why.rs").read_text(encoding="utf-8")
    listed = re.search(r"const TEXTS: \[&str; 48\] = \[(.*?)\];", text, re.S)[1]
    return dict(enumerate(re.findall(r'"([^"]*)"', listed), 1))


class TextsTest(unittest.TestCase):
    """One clause, one sentence."""

    def test_there_are_48_in_the_header(self):
        self.assertEqual(sorted(header_texts()), list(range(49)))

    def test_those_of_the_desk_are_the_headers(self):
        self.assertEqual(dict(enumerate(TEXTS)), header_texts())

    def test_those_in_rust_are_the_headers(self):
        told = header_texts()
        del told[0]
        self.assertEqual(rust_texts(), told)


if __name__ == "__main__":
    unittest.main()
