"""The command, as a person types it."""

import io
import os
import pty
import re
import signal
import subprocess
import sys
import tempfile
import unittest
from pathlib import Path
from unittest import mock

from dowelbrook.actions import Progress
from dowelbrook.command import main
from dowelbrook.drafts import sheet_from_text
from dowelbrook.shown import field_table, text_form

ROOT = Path(__file__).resolve().parents[2]
COMMAND = str(ROOT / "tools" / "dowelbrook")
NAMES = "make show unmix invert mix reduce fold same factor explain".split()

WHOLE_CASE = "modulus 10\npattern 1 2 0\nreadings 1 2 5\n"
IDLE = "dowelbrook: every count is zero on both sides, and an idle tank is no feeding\n"


def content_of(stream):
    stream.seek(0)
    return stream.read()


class Typed(unittest.TestCase):
    """Each test has a folder of its own, in which commands are typed."""

    def setUp(self):
        folder = tempfile.TemporaryDirectory()
        self.addCleanup(folder.cleanup)
        self.folder = Path(folder.name)

    def run_in_shell(self, line):
        """With this Python before any other, and as buffered as a person's."""
        path = f"{os.path.dirname(sys.executable)}:{os.environ['PATH']}"
        environment = {**os.environ, "PATH": path, "PYTHONUNBUFFERED": ""}
        return subprocess.run(line, shell=True, cwd=self.folder, env=environment, capture_output=True, text=True)

    def check(self, arguments, status, out="", err="", given=""):
        """In this process, in the test's folder, with files for the three streams."""
        streams = [tempfile.TemporaryFile("w+", encoding="utf-8", newline="") for _ in range(3)]
        for stream in streams:
            self.addCleanup(stream.close)
        streams[0].write(given)
        streams[0].seek(0)
        folder, on_pipe = os.getcwd(), signal.getsignal(signal.SIGPIPE)
        try:
            os.chdir(self.folder)
            with mock.patch.multiple(sys, stdin=streams[0], stdout=streams[1], stderr=streams[2]):
                met = main(arguments)
        finally:
            os.chdir(folder)
            signal.signal(signal.SIGPIPE, on_pipe)
        self.assertEqual((met, *map(content_of, streams[1:])), (status, out, err))

    def write(self, name, content):
        (self.folder / name).write_bytes(content if isinstance(content, bytes) else content.encode())
        return name


def shown_in(text):
    """Lines that are typed, each with what is then printed."""
    shown = re.findall(r"^    \$ (.*)\n((?:    (?!\$).*\n)*)", text, re.MULTILINE)
    return [(line, re.sub("^    ", "", printed, flags=re.MULTILINE)) for line, printed in shown]


class Help(Typed):
    def test_the_examples_work_as_typed(self):
        for name in ("", *NAMES):
            told = self.run_in_shell(f"'{COMMAND}' {name} --help")
            self.assertEqual((told.returncode, told.stderr), (0, ""))
            examples = shown_in(told.stdout.partition("example:\n")[2])
            self.assertTrue(examples, name)
            for line, printed in examples:
                self.assertEqual(self.run_in_shell(line).stdout, printed, line)

    def test_the_readme_s_examples_work_as_typed(self):
        examples = [pair for pair in shown_in((ROOT / "README.md").read_text()) if "tools/dowelbrook" in pair[0]]
        self.assertTrue(examples)
        for line, printed in examples:
            done = self.run_in_shell(f"cd '{ROOT}' && {line} 2>&1")
            self.assertEqual(done.stdout, printed, line)

    def test_the_whole(self):
        told = self.run_in_shell(f"'{COMMAND}' --help")
        self.assertEqual(told.returncode, 0)
        for name in NAMES:
            self.assertRegex(told.stdout, rf"\n    {name} +\w")

    def test_the_version_is_the_headers(self):
        header = (ROOT / "include" / "dowelbrook.h").read_text()
        numbers = [re.search(rf"VERSION_{part} (\d+)", header).group(1) for part in ("MAJOR", "MINOR", "PATCH")]
        self.check(["--version"], 0, f"dowelbrook {'.'.join(numbers)}\n")

    def test_wrong_usage(self):
        for arguments in (
            [],
            ["unmixx"],
            ["unmix"],
            ["mix", "--modulus", "x", "1", "1"],
            ["reduce", "1"],
            ["mix", "--mod", "5", "1", "1"],
        ):
            done = subprocess.run(
                [sys.executable, COMMAND, *arguments], cwd=self.folder, capture_output=True, text=True
            )
            self.assertEqual((done.returncode, done.stdout), (2, ""))
            self.assertIn("error: ", done.stderr)


class Statuses(Typed):
    def test_done(self):
        self.check(["unmix", "--modulus", "10", "1,2,0", "1,2,5"], 0, "1 0 5\n")
        self.check(["invert", "--modulus", "8", "[1, 2]"], 0, "5 6\n")
        self.check(["mix", "--modulus", "10", "1 2 0", "1 0 5"], 0, "1 2 5\n")

    def test_yes_and_no(self):
        self.check(["same", "--modulus", "8", "1,2", "3,2", "3,2", "1,2"], 0, "yes\n")
        self.check(["same", "--modulus", "8", "1,2", "3,2", "3,2", "1,3"], 1, "no\n")

    def test_an_idle_tank_is_no_feeding(self):
        self.check(["same", "--modulus", "8", "1,2", "0,0", "3,2", "0,0"], 1, "no\n", IDLE)
        self.check(["same", "--modulus", "8", "1,2", "0,0", "1,2", "0,0"], 1, "no\n", IDLE)
        self.check(["same", "--modulus", "8", "1,2", "0,0", "3,2", "1,2"], 1, "no\n")
        self.check(["same", "--modulus", "8", "1,2", "3,2", "3,2", "0,0"], 1, "no\n")
        self.check(["same", "--modulus", "8", "1,0", "0,1", "3,0", "0,3"], 0, "yes\n")

    def test_unreadable_input(self):
        said = "dowelbrook: item 1 of '1,,2' is empty\n"
        self.check(["mix", "--modulus", "10", "1,,2", "1,2"], 2, err=said)
        said = "dowelbrook: 'x' is not a whole number from 0 to 4294967295\n"
        self.check(["invert", "--modulus", "10", "1,x" + ",1" * 1000], 2, err=said)
        said = "dowelbrook: 'x' is neither a file nor a list of whole numbers such as 1,2,0\n"
        self.check(["invert", "--modulus", "10", "x"], 2, err=said)
        said = (
            "dowelbrook: one pattern is wanted, and 3 rings are given; entries of one ring have commas between them, "
            "as in 1,2,0\n"
        )
        self.check(["invert", "--modulus", "10", "1", "2", "0"], 2, err=said)
        self.check(["invert", "1,2,0"], 2, err="dowelbrook: there is no modulus: give one with --modulus\n")
        self.check(["show", "none.sheet"], 2, err="dowelbrook: none.sheet: No such file or directory\n")
        self.check(["explain", "99"], 2, err="dowelbrook: there is no number '99'; `dowelbrook explain` lists them\n")
        self.check(["invert", "-"], 2, err="dowelbrook: standard input is empty\n")
        said = "dowelbrook: --delimiter is for tables, which come with --logger\n"
        self.check(["unmix", "--delimiter", "tab", "--modulus", "10", "1", "1"], 2, err=said)

    def test_refused(self):
        said = "dowelbrook: refused 6: reading 1 is 12, not below the modulus 10\n"
        self.check(["unmix", "--modulus", "10", "1,2,0", "1,12,5"], 3, err=said)
        said = "dowelbrook: refused 4: the modulus 1 is not from 2 to 1,000,000\n"
        self.check(["factor", "1"], 3, err=said)
        said = "dowelbrook: refused 20 at byte 0: the header of a field is cut (cut.sheet)\n"
        self.check(["unmix", self.write("cut.sheet", b"\1\0")], 3, err=said)

    def test_singular(self):
        said = (
            "dowelbrook: refused 9: the pattern has no inverse modulo 6: it shares a factor with x^3 - 1 modulo the "
            "prime 2\n"
        )
        self.check(["unmix", "--modulus", "6", "1,1,0", "0,0,0"], 4, err=said)
        ghost = "dowelbrook: counts that are heard as nothing: 3 3 3\n"
        self.check(["invert", "--modulus", "6", "1,1,0"], 4, err=said + ghost)

    def test_without_the_library(self):
        for named, said in [
            ("none.so", "dowelbrook: none.so: cannot open shared object file: .*"),
            ("libc.so.6", "dowelbrook: libc.so.6 is not the library: .*undefined symbol: dowelbrook_same_feeding"),
        ]:
            done = self.run_in_shell(f"DOWELBROOK_LIBRARY={named} '{COMMAND}' same --modulus 8 1 1 1 1")
            self.assertEqual((done.returncode, done.stdout), (2, ""))
            self.assertRegex(done.stderr, f"^{said}\n$")

    def test_a_fault_of_its_own_is_no_verdict(self):
        fault = mock.patch("dowelbrook.actions.rings_of", side_effect=ZeroDivisionError)
        with fault, mock.patch("traceback.print_exc") as shown:
            self.check(["same", "1"], 70)
        shown.assert_called_once()

    def test_streams_that_are_closed_or_full(self):
        full = "dowelbrook: reading or writing: No space left on device\n"
        for line, status, printed, said in [
            ("invert --modulus 10 1,2,0 > /dev/full", 2, "", full),
            ("same --modulus 8 1 1 1 1 > /dev/full", 2, "", full),
            ("--help > /dev/full", 2, "", full),
            ("make --modulus 10 --pattern 12 > /dev/full", 2, "", full),
            ("invert --modulus 10 1,2,0 >&-", 2, "", "dowelbrook: standard output is closed\n"),
            ("show <&-", 2, "", "dowelbrook: standard input is closed\n"),
            ("unmix --logger - x <&-", 2, "", "dowelbrook: standard input is closed\n"),
            ("unmix --modulus 10 1,2,0 1,12,5 2>&-", 3, "", ""),
            ("make --modulus 10 --pattern 1,12 2>&- | wc -c", 0, "35\n", ""),
        ]:
            done = self.run_in_shell(f"'{COMMAND}' {line}")
            self.assertEqual((done.returncode, done.stdout, done.stderr), (status, printed, said), line)

    def test_a_reader_that_goes_away(self):
        self.write("loggers.csv", Tables.LOGGERS)
        self.write("records.csv", Tables.RECORDS + "8,north,1,2,5\n" * 20_000)
        done = self.run_in_shell(f"'{COMMAND}' unmix --logger loggers.csv records.csv | head -n 1")
        self.assertEqual((done.stdout, done.stderr), (Tables.COUNTS.splitlines(keepends=True)[0], ""))

    def test_an_interruption(self):
        with mock.patch("dowelbrook.actions.sheet_in", side_effect=KeyboardInterrupt):
            self.check(["show"], 130)


class Numbers(Typed):
    def test_by_number_and_by_name(self):
        told = (
            "9 SINGULAR: a pattern has no inverse modulo m: modulo the prime told it shares a factor with x^n - 1.\n"
            "It tells: the ring, counted from 1, the prime.\n"
            "What to do: No counts can be told from this logger's readings alone: its ghost can be added to any counts "
            "unheard. Use the other logger of the tank, or another pattern.\n"
        )
        for number in "9", "SINGULAR", "singular":
            self.check(["explain", number], 0, told)

    def test_all(self):
        done = subprocess.run([sys.executable, COMMAND, "explain"], capture_output=True, text=True)
        self.assertEqual(len(done.stdout.splitlines()), 19)
        self.assertIn("\n 6 COEFFICIENT an entry is not below the modulus\n", done.stdout)
        self.assertIn("\n11 PRIME       a number in the factor list is not a prime\n", done.stdout)

    def test_of_a_factor_list(self):
        told = (
            "12 ORDER: a prime in the factor list is not above the one before.\n"
            "It tells: the place, counted from 0.\n"
            "What to do: Put the primes in rising order, each once, as 2^2 for 2^1 2^1; `dowelbrook factor` prints the "
            "list that is right.\n"
        )
        for number in "12", "order":
            self.check(["explain", number], 0, told)
        told = (
            "13 PRODUCT: the powers in the factor list do not multiply to the modulus.\n"
            "What to do: Look for a prime that is missing or does not belong there, for a wrong exponent, or for the "
            "modulus of another logger; `dowelbrook factor` prints the list that is right.\n"
        )
        self.check(["explain", "13"], 0, told)


class Sources(Typed):
    """Sheets, the text form and standard input stand for the same rings."""

    def test_sheets_and_texts(self):
        examples = ROOT / "examples"
        for name in str(examples / "whole-case.sheet"), str(examples / "whole-case.txt"), self.write("w", WHOLE_CASE):
            self.check(["unmix", name], 0, "1 0 5\n")
            self.check(["invert", name], 0, "9 2 6\n")
            self.check(["mix", name, "1,0,5"], 0, "1 2 5\n")
        self.check(["unmix", "-"], 0, "1 0 5\n", given=WHOLE_CASE)
        self.check(["same", *(str(examples / f"twin-{which}.sheet") for which in ("one", "two"))], 0, "yes\n")
        self.check(["same", *(str(examples / f"idle-{which}.sheet") for which in ("one", "two"))], 1, "no\n", IDLE)

    def test_readings_beside_a_sheet_without(self):
        name = self.write("pattern.txt", "modulus 10\npattern 1 2 0\n")
        self.check(["unmix", name, "1,2,5"], 0, "1 0 5\n")
        self.check(["unmix", name], 2, err="dowelbrook: the pattern and the readings are wanted, and 1 ring is given\n")

    def test_numbers_in_files(self):
        self.check(["unmix", "--modulus", "10", self.write("pattern", "1,2,0\n"), "-"], 0, "1 0 5\n", given="1 2 5\n")
        self.check(["invert", "--modulus", "10", self.write("x,y", "1,2,0")], 0, "9 2 6\n")

    def test_options_between_rings(self):
        self.check(["unmix", "1,2,0", "--modulus", "10", "1,2,5"], 0, "1 0 5\n")
        self.check(["same", "1,2", "--modulus", "8", "3,2", "--factors", "2^3", "3,2", "1,2"], 0, "yes\n")
        self.check(["unmix", "1,2,0", "--modulus", "10", "-"], 0, "1 0 5\n", given="1,2,5")

    def test_negative_numbers(self):
        for arguments in ["unmix", "--modulus", "10", "1,2,0", "-1,2,5"], [
            "make",
            "--modulus",
            "10",
            "--pattern",
            "-1,2",
        ]:
            done = subprocess.run([sys.executable, COMMAND, *arguments], capture_output=True, text=True)
            self.assertEqual((done.returncode, done.stdout), (2, ""))
            self.assertRegex(done.stderr, "error: -1,2.*: no number here is below 0\n$")

    def test_a_sheet_is_not_taken_for_readings(self):
        name = self.write("pattern.txt", "modulus 10\npattern 1 2 0\n")
        said = "dowelbrook: readings are wanted where the sheet pattern.txt stands\n"
        self.check(["unmix", name, name], 2, err=said)
        self.check(["same", self.write("w", WHOLE_CASE), name, name], 2, err=said)

    def test_factor_lists_matter_where_they_are_used(self):
        one = self.write("one", "modulus 10\nfactors 5 2\npattern 1 2 0\nreadings 1 2 5\n")
        two = self.write("two", WHOLE_CASE)
        self.check(["mix", one, two], 0, "1 4 4\n")
        said = "dowelbrook: there are two factor lists, 5^1 2^1 and 2^1 5^1\n"
        self.check(["same", one, two], 2, err=said)
        for command in ["unmix", one], ["invert", one], ["same", one, one]:
            said = "dowelbrook: refused 12: entry 1 of the factor list 5^1 2^1: 2 is not above 5, the prime before\n"
            self.check(command, 3, err=said)
        self.check(["invert", "--factors", "2,5", one], 0, "9 2 6\n")

    def test_the_parts_of_a_mix(self):
        said = "dowelbrook: refused 6: weight 1 of the pattern is 12, not below the modulus 10\n"
        self.check(["mix", "--modulus", "10", "1,12,0", "1,0,5"], 3, err=said)
        said = "dowelbrook: refused 6: count 1 is 12, not below the modulus 10\n"
        self.check(["mix", "--modulus", "10", "1,2,0", "1,12,5"], 3, err=said)

    def test_standard_input_is_read_once(self):
        said = "dowelbrook: standard input can be read once\n"
        self.check(["mix", "-", "-"], 2, err=said)
        self.check(["unmix", "--logger", "-", "-"], 2, err=said)

    def test_a_text_with_a_byte_order_mark(self):
        self.check(["unmix", self.write("w", b"\xef\xbb\xbf" + WHOLE_CASE.encode())], 0, "1 0 5\n")

    def test_as_a_module(self):
        command = [sys.executable, "-m", "dowelbrook", "factor", "--help"]
        done = subprocess.run(command, cwd=ROOT / "python", capture_output=True, text=True)
        self.assertIn("\n    $ python3 -m dowelbrook factor 12\n", done.stdout)

    def test_texts_of_two_bytes_a_letter(self):
        name = self.write("wide.txt", WHOLE_CASE.encode("utf-16"))
        said = "dowelbrook: wide.txt: this is text in UTF-16; save it in UTF-8\n"
        for command in "show", "unmix", "make":
            self.check([command, name], 2, err=said)

    def test_two_moduli(self):
        name = self.write("w", WHOLE_CASE)
        said = "dowelbrook: there are two moduli, 8 and 10\n"
        self.check(["unmix", "--modulus", "8", name], 2, err=said)


class FactorLists(Typed):
    """Of a list that was typed wrongly, every subcommand that takes one says what is bad."""

    WRONG = [
        ("", "5: the factor list is empty"),
        ("2^2,3^0", "10: entry 1 of the factor list 2^2 3^0: the exponent of 3 is 0"),
        ("4^1,3^1", "11: entry 0 of the factor list 4^1 3^1: 4 is not a prime"),
        ("[2^2, 9]", "11: entry 1 of the factor list 2^2 9^1: 9 is not a prime"),
        ("3 2^2", "12: entry 1 of the factor list 3^1 2^2: 2 is not above 3, the prime before"),
        ("2,2,3", "12: entry 1 of the factor list 2^1 2^1 3^1: 2 is not above 2, the prime before"),
        ("2,3", "13: the factor list 2^1 3^1 multiplies to 6, not to the modulus 12"),
        ("2^255", "13: the factor list 2^255 multiplies to far more than the modulus 12"),
    ]

    EIGHT = "2,3,5,7,11,13,17,19"

    def test_typed_lists(self):
        for factors, words in [*self.WRONG, (self.EIGHT, "5: the factor list has 8 entries, more than 7")]:
            for command in ["unmix", "1", "1"], ["invert", "1"], ["same", "1", "1", "1", "1"]:
                arguments = [*command, "--modulus", "12", "--factors", factors]
                self.check(arguments, 3, err=f"dowelbrook: refused {words}\n")

    def test_a_right_list_in_every_form(self):
        for factors in "2^2,3^1", "2^2 3", "[2^2, 3]", "02^02,3":
            self.check(["invert", "--modulus", "12", "--factors", factors, "5"], 0, "5\n")

    def sheets(self):
        """Files with each list in a sheet and in the text form, and the sheet."""
        for factors, words in self.WRONG:
            text = f"modulus 12\nfactors {factors}\npattern 1\nreadings 1\n"
            sheet = sheet_from_text(text, "it")
            yield self.write("x.sheet", sheet), sheet, words
            yield self.write("x.txt", text), sheet, words

    def test_sheets_and_texts(self):
        for name, _, words in self.sheets():
            for command in ["unmix", name], ["invert", name], ["same", name, name]:
                self.check(command, 3, err=f"dowelbrook: refused {words}\n")

    def test_show_tells_it(self):
        for name, sheet, words in self.sheets():
            self.check(["show", name], 3, "\n".join([*field_table(sheet), f"refused {words}\n"]))
            self.check(["show", "--text", name], 3, "\n".join([*text_form(sheet), f"# refused {words}\n"]))

    def test_make_warns_of_it(self):
        sheet = "01 0001 01\n02 0004 0000000C\n03 000A 00000002 02 00000009 01\n04 0004 00000001\n"
        warned = "11: entry 1 of the factor list 2^2 9^1: 9 is not a prime"
        said = f"dowelbrook: the sheet is written, but it will be refused {warned}\n"
        typed = ["--modulus", "12", "--factors", "2^2,9", "--pattern", "1"]
        self.check(["make", "--hex", *typed], 0, sheet, said)
        text = self.write("x.txt", "modulus 12\nfactors 2^2 9\npattern 1\n")
        self.check(["make", "--hex", text], 0, sheet, said)

    def test_eight_entries_make_no_sheet_that_reads(self):
        warned = "22 at byte 11: the factors field cannot have 40 bytes: an entry has 5, and there are at most 7"
        typed = ["--modulus", "12", "--factors", self.EIGHT, "--pattern", "1"]
        done = subprocess.run([sys.executable, COMMAND, "make", *typed], capture_output=True, text=True)
        said = f"dowelbrook: the sheet is written, but it will be refused {warned}\n"
        self.assertEqual((done.returncode, done.stderr), (0, said))


class Sheets(Typed):
    MAKE = ["make", "--modulus", "10", "--pattern", "1,2,0", "--readings"]

    def test_make_warns_of_what_will_be_refused(self):
        done = subprocess.run([sys.executable, COMMAND, *self.MAKE, "1,12,5"], capture_output=True)
        warned = (
            b"dowelbrook: the sheet is written, but it will be refused 6: reading 1 is 12, not below the modulus 10\n"
        )
        self.assertEqual((done.returncode, len(done.stdout), done.stderr), (0, 54, warned))

    def test_show_in_other_forms(self):
        refused = "refused 6: weight 0 of the pattern is 12, not below the modulus 10\n"
        text = "version 1\nmodulus 10\nfactors 2^1 5^1\npattern 12\n"
        self.check(["show", "--text"], 3, f"{text}# {refused}", given="modulus 10\npattern 12\n")
        table = "offset  tag  field     length  value\n     0    1  version        1  1\n     4  end\n"
        refused = "refused 23 at byte 4: the sheet ends without a modulus field\n"
        self.check(["show", "--hex"], 3, table + refused, given="\ufeff`01 0001 01`")
        self.check(["show", "--hex"], 2, err="dowelbrook: standard input: these are not bytes in hex\n", given="xy")
        table = "offset  tag  field     length  value\n     0  end\n"
        self.check(["show"], 3, table + "refused 23 at byte 0: the sheet ends without a version field\n")

    def test_make_takes_one_thing(self):
        said = "dowelbrook: a file and fields cannot be given together\n"
        self.check([*self.MAKE, "1,2,5", "text"], 2, err=said)
        self.check(["make"], 2, err="dowelbrook: give a text file (- for standard input), or --modulus and --pattern\n")
        self.check(["make", self.write("x.sheet", b"\1\0")], 2, err="dowelbrook: x.sheet: this is not the text form\n")

    def test_make_names_the_option(self):
        said = "dowelbrook: --sheet-version: '256' is not a whole number from 0 to 255\n"
        self.check([*self.MAKE, "1,2,5", "--sheet-version", "256"], 2, err=said)

    def test_make_does_not_skip_a_missing_entry(self):
        self.check([*self.MAKE, "1,,5"], 2, err="dowelbrook: --readings: item 1 of '1,,5' is empty\n")

    def test_make_writes_no_sheet_to_a_terminal(self):
        ours, theirs = pty.openpty()
        self.addCleanup(os.close, ours)
        done = subprocess.run(
            [sys.executable, COMMAND, *self.MAKE, "1,2,5"], stdout=theirs, stderr=subprocess.PIPE, text=True
        )
        os.close(theirs)
        said = "dowelbrook: a sheet is binary: send it to a file with >, or use --hex\n"
        self.assertEqual((done.returncode, done.stderr), (2, said))

    def test_show_judges_values(self):
        for values, status, last in [
            ("1,2,5", 0, "    54  end"),
            ("1,12,5", 3, "refused 6: reading 1 is 12, not below the modulus 10"),
            ("1,2", 3, "refused 22 at byte 39: the readings have 8 bytes, the pattern has 12, and an entry has 4"),
        ]:
            done = self.run_in_shell(
                f"'{COMMAND}' {' '.join(self.MAKE)} {values} 2>warning | '{COMMAND}' show; exit $?"
            )
            self.assertEqual((done.returncode, done.stdout.splitlines()[-1]), (status, last))

    def test_show_and_make_go_back_and_forth(self):
        made = f"'{COMMAND}' {' '.join(self.MAKE)} 1,2,5"
        line = f"{made} | '{COMMAND}' show --text | '{COMMAND}' make - | '{COMMAND}' show -"
        self.assertIn("    39    5  readings      12  1 2 5\n", self.run_in_shell(line).stdout)


class Tables(Typed):
    LOGGERS = "name,m,w0,w1,w2\nnorth,10,1,2,0\nghost,10,1,1,0\n"
    RECORDS = "id,logger,r0,r1,r2\n7,north,1,2,5\n"
    COUNTS = "id,logger,refused,count 0,count 1,count 2\n7,north,,1,0,5\n"

    def unmix(self, records, status, out, err="", loggers=None):
        self.write("loggers.csv", loggers or self.LOGGERS)
        self.write("records.csv", records)
        self.check(["unmix", "--logger", "loggers.csv", "records.csv"], status, out, err)

    def test_counts(self):
        self.unmix(self.RECORDS, 0, self.COUNTS)

    def test_from_standard_input(self):
        self.write("loggers.csv", self.LOGGERS)
        self.check(["unmix", "--logger", "loggers.csv", "-"], 0, self.COUNTS, given=self.RECORDS)

    def test_line_ends_and_byte_order_marks(self):
        windows = "\ufeff" + self.RECORDS.replace("\n", "\r\n")
        loggers = "\ufeff" + self.LOGGERS.replace("\n", "\r\n")
        self.unmix(windows.encode(), 0, self.COUNTS, loggers=loggers.encode())

    def test_bytes_of_another_encoding_go_through(self):
        self.write("loggers.csv", self.LOGGERS)
        self.write("records.csv", self.RECORDS.encode().replace(b"7,", b"caf\xe9,"))
        command = [sys.executable, COMMAND, "unmix", "--logger", "loggers.csv", "records.csv"]
        done = subprocess.run(command, cwd=self.folder, capture_output=True)
        self.assertEqual(done.stdout, self.COUNTS.encode().replace(b"7,", b"caf\xe9,"))

    def test_cells_of_two_lines_go_through(self):
        self.unmix(self.RECORDS.replace("7,", '"7\r\n7",'), 0, self.COUNTS.replace("7,", '"7\r\n7",'))

    def test_what_a_table_does_not_take(self):
        said = "dowelbrook: with --logger one table of records is wanted, and neither --modulus nor --factors\n"
        self.check(["unmix", "--logger", "x", "--modulus", "10", "y"], 2, err=said)
        self.check(["unmix", "--logger", "x", "y", "z"], 2, err=said)
        self.write("loggers.csv", self.LOGGERS)
        self.check(["unmix", "--logger", "none", "y"], 2, err="dowelbrook: none: No such file or directory\n")
        self.check(["unmix", "--logger", "loggers.csv", "y"], 2, err="dowelbrook: y: No such file or directory\n")
        done = self.run_in_shell(f"'{COMMAND}' unmix --logger x --delimiter colon y")
        self.assertEqual((done.returncode, done.stdout), (2, ""))

    def test_an_empty_cell_is_named(self):
        said = "dowelbrook: records.csv, line 3, column 4 (r1): the cell is empty\n"
        self.unmix(self.RECORDS + "8,north,1,,5\n", 2, self.COUNTS, said)

    def test_refused_records(self):
        out = self.COUNTS + '8,north,"refused 6: reading 1 of line 3 is 12, not below the modulus 10",,,\n'
        said = "dowelbrook: 1 of 2 records refused; the column 'refused' says why\n"
        self.unmix(self.RECORDS + "8,north,1,12,5\n", 3, out, said)
        reason = "refused 9: logger ghost has no inverse modulo 10: it shares a factor with x^3 - 1 modulo the prime 2"
        self.unmix(self.RECORDS + "8,ghost,1,2,5\n", 4, f"{self.COUNTS}8,ghost,{reason},,,\n", said)

    def test_delimiters(self):
        self.write("loggers.csv", self.LOGGERS)
        self.write("records.csv", self.RECORDS.replace(",", ";").replace("id", "id, of a row"))
        command = ["unmix", "--logger", "loggers.csv", "records.csv"]
        self.check(command, 0, self.COUNTS.replace(",", ";").replace("id", "id, of a row"))
        self.write("records.csv", self.RECORDS.replace("id", "id;day"))
        self.write("loggers.csv", self.LOGGERS)
        self.check([*command, "--delimiter", "comma"], 0, self.COUNTS.replace("id", "id;day"))


class Terminal(io.StringIO):
    def isatty(self):
        return True


class Clock:
    """A second passes at each look."""

    now = 0

    def __call__(self):
        self.now += 1
        return self.now


class Progresses(Typed):
    def told_on(self, stream, clock, out=None):
        path = self.folder / "table"
        path.write_bytes(b"x" * 1000)
        with open(path) as file:
            progress = Progress(file, stream, out or io.StringIO(), clock)
            file.read(1)
            progress.told(2048)
            progress.end()
        return stream.getvalue()

    def test_on_a_terminal(self):
        self.assertEqual(self.told_on(Terminal(), Clock()), "\r2,048 records, 100 %\r\033[K")

    def test_not_at_once(self):
        self.assertEqual(self.told_on(Terminal(), lambda: 0.0), "")

    def test_nowhere_else(self):
        self.assertEqual(self.told_on(io.StringIO(), Clock()), "")

    def test_not_between_the_rows(self):
        self.assertEqual(self.told_on(Terminal(), Clock(), out=Terminal()), "")


if __name__ == "__main__":
    unittest.main()
