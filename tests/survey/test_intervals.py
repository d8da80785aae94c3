"""The exact interval of a Poisson number, beside tables of the literature; and rates in words."""

import unittest
from math import exp

from desk.survey.intervals import interval
from desk.survey.rates import rate_of, told

# 95 in 100, four digits: F. Garwood, Biometrika 28 (1936), as E. S. Pearson and H. O. Hartley give it in their Biometrika Tables for
# Statisticians, I, table 40, and K. Ulm in the American Journal of Epidemiology 131 (1990).
TABLE = {0: ("0", "3.689"), 1: ("0.02532", "5.572"), 3: ("0.6187", "8.767"), 10: ("4.795", "18.39"), 100: ("81.36", "121.6")}


def summed(seen, mean):
    """How likely so many or fewer are, added up term by term."""
    term = total = exp(-mean)
    for count in range(1, seen + 1):
        term *= mean / count
        total += term
    return total


class IntervalTest(unittest.TestCase):
    def test_tables_of_the_literature(self):
        for seen, ends in TABLE.items():
            self.assertEqual(tuple(f"{end:.4g}" for end in interval(seen)), ends, seen)

    def test_what_the_ends_are(self):
        for seen in range(0, 60):
            low, high = interval(seen)
            self.assertAlmostEqual(summed(seen, high), 0.025, 9)
            if seen:
                self.assertAlmostEqual(1 - summed(seen - 1, low), 0.025, 9)
            self.assertTrue(low <= seen < high)

    def test_many(self):
        ends = [interval(seen) for seen in (500, 1000, 5000)]
        for (low, high), seen in zip(ends, (500, 1000, 5000)):
            self.assertAlmostEqual(low, seen - 1.96 * seen ** 0.5 + 1, delta=1)
            self.assertAlmostEqual(high, seen + 1.96 * (seen + 1) ** 0.5 + 2, delta=1)


class WordsTest(unittest.TestCase):
    def test_rates_in_words(self):
        for seen, watched, words in (
                (3, 41200, "3 in 41,200 conversations: about 7 in 100,000, and between 1 and 21 with 95 in 100 certainty"),
                (0, 41200, "none in 41,200 conversations: at most 9 in 100,000 with 95 in 100 certainty"),
                (1, 41200, "1 in 41,200 conversations: about 2 in 100,000, and between less than 1 and 14 with 95 in 100 certainty"),
                (43, 2811, "43 in 2,811 conversations: about 15 in 1,000, and between 11 and 21 with 95 in 100 certainty"),
                (1, 1, "1 in 1 conversation: about 100 in 100, and between 2 and 557 with 95 in 100 certainty"),
                (0, 0, "no conversations were watched, so nothing can be said")):
            self.assertEqual(told(rate_of(seen, watched, "conversations")), words)


if __name__ == "__main__":
    unittest.main()
