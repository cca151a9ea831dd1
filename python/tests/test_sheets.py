"""Sheets: the package's own grammar against the library, and back from the text form."""

import itertools
import random
import unittest
from pathlib import Path

import dowelbrook
from dowelbrook.actions import program_refusal
from dowelbrook.drafts import sheet_from_options, sheet_from_text
from dowelbrook.grammar import fault_of, fields_of
from dowelbrook.shown import field_table, text_form
from dowelbrook.typed import InputError, bytes_of, factors_of, items_of, numbers_of

EXAMPLES = Path(__file__).resolve().parents[2] / "examples"

WHOLE_CASE = bytes.fromhex(
    "01000101 0200040000000A 03000A00000002010000000501" "04000C000000010000000200000000 05000C000000010000000200000005"
)

LENGTHS_OF_FACTORS = "an entry has 5, and there are at most 7"


def wrong_sheets(count):
    """Sheets with up to three bytes changed, cut, left out or doubled."""
    drawn = random.Random(1)
    for _ in range(count):
        sheet = bytearray(WHOLE_CASE)
        for _ in range(drawn.randrange(4)):
            at = drawn.randrange(len(sheet) or 1)
            change = drawn.randrange(4)
            if change == 0:
                sheet[at : at + 1] = bytes([drawn.choice((0, 1, 2, 3, 4, 5, 9, 12, 255))])
            elif change == 1:
                del sheet[at:]
            elif change == 2:
                del sheet[at : at + 1]
            else:
                sheet[at:at] = sheet[at : at + drawn.randrange(4)]
        yield bytes(sheet)


def sheet_with(factors):
    """A sheet of modulus 12 with this factor list."""
    return sheet_from_text(f"modulus 12\nfactors {factors}\npattern 1 2 0\n", "it")


def wrong_lists(count):
    """Sheets with drawn factor lists."""
    drawn = random.Random(2)
    for _ in range(count):
        yield sheet_with(" ".join(drawn.choices("2^2 2^2 3 3 5 2^0 1 4 2^255".split(), k=drawn.randrange(9))))


def first_line(refusal):
    """The line that the program prints for a refusal."""
    ring = "" if refusal.ring is None else f" ring {refusal.ring}"
    place = "" if refusal.place is None else f" at {refusal.place}"
    return f"refused {refusal.number}{ring}{place}"


class Reading(unittest.TestCase):
    def test_its_faults_are_the_librarys(self):
        met = set()
        for sheet in wrong_sheets(4000):
            fault = fault_of(sheet)
            try:
                dowelbrook.read_sheet(sheet)
                self.assertIsNone(fault, sheet.hex())
            except dowelbrook.Refusal as refusal:
                self.assertEqual((refusal.number, refusal.place, refusal.words), fault, sheet.hex())
                met.add(refusal.number)
        self.assertEqual(met, {20, 21, 22, 23, 24})

    def test_what_is_judged_is_what_the_program_prints(self):
        met = set()
        for sheet in itertools.chain(wrong_sheets(4000), wrong_lists(1000)):
            refusal, line = program_refusal(sheet), dowelbrook.report(sheet).partition("\n")[0]
            self.assertEqual(line.startswith("refused"), refusal is not None, sheet.hex())
            if refusal:
                self.assertEqual(first_line(refusal), line)
                met.add(refusal.number)
        self.assertLessEqual({4, 5, 6, 10, 11, 12, 13, 22}, met)

    def test_which_part_of_a_factor_list_is_bad(self):
        for factors, printed, words in [
            ("", "5", "the factor list is empty"),
            ("2^2 3^0", "10 at 1", "entry 1 of the factor list 2^2 3^0: the exponent of 3 is 0"),
            ("4^1 3^1", "11 at 0", "entry 0 of the factor list 4^1 3^1: 4 is not a prime"),
            ("2^2 1", "11 at 1", "entry 1 of the factor list 2^2 1^1: 1 is not a prime"),
            ("3 2^2", "12 at 1", "entry 1 of the factor list 3^1 2^2: 2 is not above 3, the prime before"),
            ("2 2 3", "12 at 1", "entry 1 of the factor list 2^1 2^1 3^1: 2 is not above 2, the prime before"),
            ("2 3", "13", "the factor list 2^1 3^1 multiplies to 6, not to the modulus 12"),
            ("2^2 3 5 7 11 13 17 19", "22 at 11", "the factors field cannot have 40 bytes: " + LENGTHS_OF_FACTORS),
        ]:
            sheet = sheet_with(factors)
            self.assertEqual(dowelbrook.report(sheet), f"refused {printed}\n")
            self.assertEqual(program_refusal(sheet).words, words)
        self.assertEqual(dowelbrook.report(sheet_with("2^2 3")).partition("\n")[0], "ring 3 modulus 12")

    def test_lengths_that_a_field_cannot_have(self):
        for tag, length, words in [
            (1, 2, "the version field cannot have 2 bytes: it has 1"),
            (2, 5, "the modulus field cannot have 5 bytes: it has 4"),
            (3, 7, "the factors field cannot have 7 bytes: " + LENGTHS_OF_FACTORS),
            (4, 4100, "the pattern field cannot have 4100 bytes: an entry has 4, and there are at most 1,024"),
        ]:
            before = next(field.offset for field in fields_of(WHOLE_CASE) if field.tag == tag)
            fault = fault_of(WHOLE_CASE[:before] + bytes([tag]) + length.to_bytes(2, "big") + bytes(length))
            self.assertEqual(fault, (22, before, words))

    def test_a_table_shows_every_sheet(self):
        for sheet in wrong_sheets(500):
            self.assertTrue(list(field_table(sheet))[-1].endswith("end"))

    def test_a_table_shows_what_is_wrong(self):
        wrong = bytes.fromhex("01000101 02000400 0000 0A 030007 0000000201 0000 09000207FF 04000C00000001 00000002 01")
        self.assertEqual(
            list(field_table(wrong)),
            [
                "offset  tag  field     length  value",
                "     0    1  version        1  1",
                "     4    2  modulus        4  10",
                "    11    3  factors        7  2^1 (00 00)",
                "    21    9  unknown        2  07 FF",
                "    26    4  pattern       12  1 2 (01) (cut)",
                "    38  end",
            ],
        )

    def test_sheets_at_the_limits(self):
        def sheet(factors, entries):
            sizes = bytes([3]) + (5 * factors).to_bytes(2, "big"), bytes([4]) + (4 * entries).to_bytes(2, "big")
            return WHOLE_CASE[:11] + sizes[0] + bytes(5 * factors) + sizes[1] + bytes(4 * entries)

        for factors, entries, number in [(7, 1024, None), (8, 1024, 22), (7, 1025, 22), (0, 0, None)]:
            fault = fault_of(sheet(factors, entries))
            self.assertEqual(fault and fault.number, number)
        self.assertEqual(dowelbrook.read_sheet(sheet(0, 0) + bytes([5, 0, 0])), (10, [], [], []))


class Making(unittest.TestCase):
    def test_the_text_form_makes_the_sheet_again(self):
        for sheet in wrong_sheets(2000):
            text = "\n".join(text_form(sheet))
            self.assertEqual(sheet_from_text(text, "it"), sheet, text)

    def test_options_and_text_make_the_same(self):
        fields = ("modulus", "10"), ("pattern", "[1, 2, 0]"), ("readings", "1 2 5")
        self.assertEqual(sheet_from_options((name, f"--{name}", text) for name, text in fields), WHOLE_CASE)
        text = "modulus\t10  # ten\r\n\r\npattern 1,2,0\r\nreadings 1 , 2, 5\r\n"
        self.assertEqual(sheet_from_text(text, "it"), WHOLE_CASE)

    def test_missing_entries_are_errors(self):
        for text in "1,,2", ",1", "1,2,", "1, ,2", "[1,,2]", ",", "[,]":
            self.assertRaisesRegex(InputError, "item . of .* is empty", items_of, text)
            self.assertRaisesRegex(InputError, "it, line 2: item", sheet_from_text, f"modulus 10\npattern {text}", "it")

    def test_what_is_left_out_is_not_given(self):
        for text, said in [
            ("modulus 10", "it: the pattern is missing (`without pattern` leaves it out on purpose)"),
            ("modulus 10\npattern 1\nwithout modulus", "it: the modulus is given and left out"),
            ("without modulus\npattern 1", "it: factors cannot be worked out without a modulus"),
            ("modulus 10\nweights 1", "it, line 2: 'weights' is not a field"),
            ("modulus 10 11", "it, line 1: modulus takes one number, not 2"),
            ("# a\x85b \u2028 c\r\rwhy", "it, line 3: 'why' is not a field"),
            ("pattern" + " 1" * 16384, "it, line 1: pattern would have 65536 bytes; a field holds at most 65535"),
            ("bytes `0x1`", "it, line 1: these are not bytes in hex"),
        ]:
            with self.assertRaises(InputError) as caught:
                sheet_from_text(text, "it")
            self.assertEqual(str(caught.exception), said)

    def test_bytes_as_document_01_writes_them(self):
        self.assertEqual(bytes_of("`01 0001 01`, `02 0004 0000000A`"), WHOLE_CASE[:11])

    def test_lists(self):
        self.assertEqual(numbers_of(" [ 1, 2 0 ]\n"), [1, 2, 0])
        self.assertEqual(numbers_of("[]"), [])
        self.assertEqual(numbers_of("0 00 007 " + "0" * 5000 + "1"), [0, 0, 7, 1])
        self.assertEqual(factors_of("2^3,5"), [(2, 3), (5, 1)])
        for text in "x", "-1", "+1", "1.0", "1_0", "4294967296", "\u0663", "1e3", "12345678901", "-", "9" * 5000:
            self.assertRaisesRegex(InputError, "is not a whole number from 0 to 4294967295", numbers_of, text)
        for text, part, most in [
            ("2^", "", 255),
            ("2^256", "256", 255),
            ("2^-1", "-1", 255),
            ("2^3^1", "3^1", 255),
            ("^2", "", 4294967295),
            ("2*3^2", "2*3", 4294967295),
        ]:
            with self.assertRaises(InputError) as caught:
                factors_of(f"2,{text}")
            why = f"'{part}' is not a whole number from 0 to {most}"
            said = f"'{text}' is not a prime with its exponent, such as 2^3: {why}"
            self.assertEqual(str(caught.exception), said)

    def test_the_examples_are_made_from_their_texts(self):
        texts = sorted(EXAMPLES.glob("*.txt"))
        self.assertTrue(texts)
        for text in texts:
            made = sheet_from_text(text.read_text(), text.name)
            self.assertEqual(made, text.with_suffix(".sheet").read_bytes(), text.name)


if __name__ == "__main__":
    unittest.main()
