"""The table of numbers is the C header's."""

import re
import unittest
from pathlib import Path

from dowelbrook.numbers import LEAST_MODULUS, MOST_ENTRIES, MOST_FACTORS, MOST_MODULUS, TABLE

HEADER = Path(__file__).resolve().parents[2] / "include" / "dowelbrook.h"

WORDS = ("ring", "place", "prime", "offset")


def told_by(sentence):
    """The words after "tells"."""
    told = sentence.partition("tells")[2]
    return {word for word in WORDS if re.search(rf"\b{word}\b", told)}


def rows_of_header():
    """number: (name, what it tells). A comment above several numbers says what each of them tells."""
    enum = re.search(r"enum \{(.*?)\};", HEADER.read_text(), re.DOTALL).group(1)
    rows, tell_alike = {}, set()
    for name, number, rest in re.findall(r"DOWELBROOK_(\w+) = (\d+)(.*?)(?=DOWELBROOK_|$)", enum, re.DOTALL):
        comments = re.findall(r"/\*(.*?)\*/", rest, re.DOTALL)
        own = told_by(comments[0]) if comments else set()
        rows[int(number)] = (name, own | tell_alike)
        if len(comments) > 1:
            tell_alike = told_by(comments[1])
    return rows


class TheTable(unittest.TestCase):
    def test_is_the_headers(self):
        self.assertEqual({row.number: (row.name, set(row.tells)) for row in TABLE}, rows_of_header())

    def test_says_something_of_each_number(self):
        for row in TABLE:
            self.assertTrue(row.meaning and row.advice.endswith("."), row)

    def test_limits_are_the_headers(self):
        stated = f"n is 1 to {MOST_ENTRIES:,} and m is {LEAST_MODULUS} to {MOST_MODULUS:,}"
        self.assertIn(stated, HEADER.read_text())
        self.assertIn(f"or there are none, or more than {MOST_FACTORS} */", HEADER.read_text())

    def test_limits_stand_in_the_meanings(self):
        meanings = {row.name: row.meaning for row in TABLE}
        self.assertEqual(meanings["LARGE"], "ring 1 has more than 1,024 entries")
        self.assertEqual(meanings["MODULUS"], "the modulus is below 2 or above 1,000,000")
        words = "the factor list has no entry, or more than 7, or not as many primes as exponents"
        self.assertEqual(meanings["FACTORS"], words)


if __name__ == "__main__":
    unittest.main()
