"""What each subcommand does with its arguments; it hands back the status."""

from __future__ import annotations

import argparse
import math
import os
import sys
import time
from typing import Any, Callable, Iterable, NamedTuple, TextIO

from . import calls
from .drafts import sheet_from_options, sheet_from_text
from .grammar import fields_of
from .inputs import (
    STANDARD_INPUT,
    Rings,
    demand_read_once,
    demand_standard_input,
    read_bytes,
    rings_of,
    said,
    sheet_in,
    text_in,
)
from .logger import COUNTS
from .numbers import SINGULAR, TABLE, Number
from .refusals import PATTERN, Refusal, Singular, factors_text
from .rings import lend
from .sheets import read_sheet
from .shown import field_table, hex_line, text_form
from .tables import DELIMITERS, Table, Tally, Unmixing, read_loggers
from .typed import InputError, bytes_of

DONE, NO, UNUSABLE, REFUSED, NO_INVERSE = 0, 1, 2, 3, 4

# A fault of this package's own. Python's 1 would mean no.
FAULT = 70


def say(message: str) -> None:
    print(f"dowelbrook: {message}", file=sys.stderr)


def print_lines(lines: Iterable[str]) -> None:
    for line in lines:
        print(line)


# Calls on rings


def rings_given(arguments: argparse.Namespace, *wanted: str, with_readings: bool = False) -> Rings:
    return rings_of(arguments.rings, wanted, arguments.modulus, with_readings)


def mix(arguments: argparse.Namespace) -> int:
    given = rings_given(arguments, "the pattern", "the counts")
    pattern, counts = (lend(ring, "the ring") for ring in given.rings)
    print(*calls.mixed(pattern, counts, given.modulus, (PATTERN, COUNTS)))
    return DONE


def reduce(arguments: argparse.Namespace) -> int:
    given = rings_given(arguments, "one ring")
    print(*calls.reduce(given.rings[0], given.modulus, arguments.divisor))
    return DONE


def fold(arguments: argparse.Namespace) -> int:
    given = rings_given(arguments, "one ring")
    print(*calls.fold(given.rings[0], given.modulus, arguments.onto))
    return DONE


def invert(arguments: argparse.Namespace) -> int:
    given = rings_given(arguments, "one pattern")
    print(*calls.invert(given.rings[0], given.modulus, given.factors(arguments.factors)))
    return DONE


def unmix(arguments: argparse.Namespace) -> int:
    if arguments.logger is not None:
        return unmix_table(arguments)
    if arguments.delimiter is not None:
        raise InputError("--delimiter is for tables, which come with --logger")
    given = rings_given(arguments, "the pattern", "the readings", with_readings=True)
    pattern, readings = given.rings
    print(*calls.unmix(pattern, readings, given.modulus, given.factors(arguments.factors)))
    return DONE


def same(arguments: argparse.Namespace) -> int:
    given = rings_given(arguments, *calls.FOUR_NAMES, with_readings=True)
    f1, y1, f2, y2 = given.rings
    verdict = calls.same_feeding(f1, y1, f2, y2, given.modulus, given.factors(arguments.factors))
    # Through a pattern that has an inverse there is no reading exactly where every count is zero.
    if not any(y1) and not any(y2):
        say("every count is zero on both sides, and an idle tank is no feeding")
    print("yes" if verdict else "no")
    return DONE if verdict else NO


def factor(arguments: argparse.Namespace) -> int:
    print(factors_text(calls.factor(arguments.m)))
    return DONE


# Tables


def opened(path: str) -> TextIO:
    """A table's text. Bytes that are no UTF-8, in an id for instance, go out as they came in."""
    if path == STANDARD_INPUT:
        demand_standard_input()
    source: Any = sys.stdin.fileno() if path == STANDARD_INPUT else path
    return open(source, encoding="utf-8-sig", errors="surrogateescape", newline="", closefd=path != STANDARD_INPUT)


def opened_for_output() -> TextIO:
    return open(sys.stdout.fileno(), "w", encoding="utf-8", errors="surrogateescape", newline="", closefd=False)


# Seconds between two words about the progress.
PAUSE = 0.5


class Progress:
    """How far a table has come, told on a terminal that shows nothing else."""

    def __init__(
        self, file: TextIO, terminal: TextIO, out: TextIO, clock: Callable[[], float] = time.monotonic
    ) -> None:
        self._file, self._terminal, self._clock = file, terminal, clock
        is_wanted = terminal.isatty() and not out.isatty()
        self._size = os.fstat(file.fileno()).st_size
        self._next = clock() + PAUSE if is_wanted else math.inf
        self._is_told = False

    def told(self, records: int) -> None:
        if self._clock() >= self._next:
            self._next = self._clock() + PAUSE
            self._is_told = True
            share = f", {100 * self._file.buffer.tell() // self._size} %" if self._size else ""
            print(f"\r{records:,} records{share}", end="", file=self._terminal, flush=True)

    def end(self) -> None:
        if self._is_told:
            print("\r\033[K", end="", file=self._terminal, flush=True)


def unmix_table(arguments: argparse.Namespace) -> int:
    if len(arguments.rings) != 1 or arguments.modulus is not None or arguments.factors is not None:
        raise InputError("with --logger one table of records is wanted, and neither --modulus nor --factors")
    (path,) = arguments.rings
    demand_read_once([arguments.logger, path])
    delimiter = DELIMITERS.get(arguments.delimiter)
    with opened(arguments.logger) as file:
        loggers = read_loggers(Table(file, said(arguments.logger), delimiter))
    with opened(path) as file, opened_for_output() as out:
        progress = Progress(file, sys.stderr, out)
        try:
            tally = Unmixing(loggers, Table(file, said(path), delimiter)).run(out.write, progress.told)
        finally:
            progress.end()
    return tally_status(tally)


def tally_status(tally: Tally) -> int:
    if not tally.refused:
        return DONE
    say(f"{tally.refused:,} of {tally.records:,} records refused; the column 'refused' says why")
    return NO_INVERSE if tally.first == SINGULAR else REFUSED


# Sheets


class FieldOption(NamedTuple):
    """An option of make: the line of the text form that it stands for, and its help."""

    line: str
    option: str
    metavar: str
    help: str


FIELD_OPTIONS = (
    FieldOption("without", "--without", "NAMES", "required fields to leave out"),
    FieldOption("version", "--sheet-version", "V", "1 unless given"),
    FieldOption("modulus", "--modulus", "M", "such as 10"),
    FieldOption("factors", "--factors", "LIST", "such as 2^1,5^1; worked out unless given"),
    FieldOption("pattern", "--pattern", "LIST", "such as 1,2,0"),
    FieldOption("readings", "--readings", "LIST", "such as 1,2,5; none unless given"),
    FieldOption("bytes", "--bytes", "HEX", "bytes to put at the end"),
)


def sheet_made(arguments: argparse.Namespace) -> bytes:
    given = [(field.line, field.option, getattr(arguments, field.line)) for field in FIELD_OPTIONS]
    fields = [field for field in given if field[2] is not None]
    if fields and arguments.file is not None:
        raise InputError("a file and fields cannot be given together")
    if fields:
        return sheet_from_options(fields)
    if arguments.file is None:
        raise InputError("give a text file (- for standard input), or --modulus and --pattern")
    text = text_in(read_bytes(arguments.file), arguments.file)
    if text is None:
        raise InputError(f"{said(arguments.file)}: this is not the text form")
    return sheet_from_text(text, said(arguments.file))


def program_refusal(sheet: bytes) -> Refusal | None:
    """What the library refuses the sheet with, as the program unmix does; a singular pattern is not refused."""
    try:
        held = read_sheet(sheet)
        if held.readings is None:
            calls.invert(held.pattern, held.modulus, held.factors)
        else:
            calls.unmix(held.pattern, held.readings, held.modulus, held.factors)
    except Singular:
        return None
    except Refusal as refusal:
        return refusal
    return None


def make(arguments: argparse.Namespace) -> int:
    sheet = sheet_made(arguments)
    if arguments.hex:
        print_lines(map(hex_line, fields_of(sheet)))
    elif sys.stdout.isatty():
        raise InputError("a sheet is binary: send it to a file with >, or use --hex")
    else:
        sys.stdout.buffer.write(sheet)
    sys.stdout.flush()
    refusal = program_refusal(sheet)
    if refusal:
        say(f"the sheet is written, but it will be {refusal}")
    return DONE


def sheet_in_hex(path: str) -> bytes:
    try:
        return bytes_of(read_bytes(path).decode("utf-8-sig", errors="replace"))
    except InputError as error:
        raise InputError(f"{said(path)}: {error}") from None


def show(arguments: argparse.Namespace) -> int:
    sheet = sheet_in_hex(arguments.file) if arguments.hex else sheet_in(arguments.file)
    print_lines(text_form(sheet) if arguments.text else field_table(sheet))
    refusal = program_refusal(sheet)
    if refusal:
        print(f"# {refusal}" if arguments.text else refusal)
    return REFUSED if refusal else DONE


# Numbers


def row_of(text: str) -> Number:
    for row in TABLE:
        if text.upper() in (str(row.number), row.name):
            return row
    raise InputError(f"there is no number {text!r}; `dowelbrook explain` lists them")


TOLD = {
    "ring": "the ring, counted from 1",
    "place": "the place, counted from 0",
    "prime": "the prime",
    "offset": "the offset in bytes, counted from 0",
}


def explain(arguments: argparse.Namespace) -> int:
    if arguments.number is None:
        print_lines(f"{row.number:2} {row.name:11} {row.meaning}" for row in TABLE)
        return DONE
    row = row_of(arguments.number)
    print(f"{row.number} {row.name}: {row.meaning}.")
    if row.tells:
        print(f"It tells: {', '.join(map(TOLD.__getitem__, row.tells))}.")
    print(f"What to do: {row.advice}")
    return DONE
