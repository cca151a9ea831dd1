"""Tables of loggers and of records, read and written row by row: however long a table is, one row is held.

A table has a header line and then a row a line. Comma, semicolon or tab stand between cells; CRLF, a byte order mark
and lines with nothing on them are taken. An empty cell, or one that should be a number and is none, is an error that
names line and column: were it passed over, every later number would move to another feeder.
"""

from __future__ import annotations

import csv
import itertools
import re
from array import array
from typing import Callable, Dict, Iterable, Iterator, List, NamedTuple, TextIO, Union

from .logger import Logger, Steady
from .refusals import Refusal, readings_part
from .rings import MOST_WORD
from .typed import InputError, number_of

# In the order in which they are looked for in the header line.
DELIMITERS = {"tab": "\t", "semicolon": ";", "comma": ","}

Cells = List[str]


class Row(NamedTuple):
    """A row and the line on which it starts."""

    line: int
    cells: Cells


class Table:
    """A table that is being read; name is what messages call it."""

    def __init__(self, lines: TextIO, name: str, delimiter: str | None = None) -> None:
        self.name = name
        header = lines.readline()
        self.delimiter = delimiter or _delimiter_of(header)
        text = self._checked(itertools.chain([header], lines))
        self._reader = csv.reader(text, delimiter=self.delimiter, strict=True, skipinitialspace=True)
        self.headings: Cells = next(self._all_rows(), Row(1, [])).cells
        self._demand_header()

    def _checked(self, lines: Iterable[str]) -> Iterator[str]:
        for number, line in enumerate(lines, 1):
            if "\0" in line:
                raise InputError(f"{self.name}, line {number}: this is no text in UTF-8")
            yield line

    def _demand_header(self) -> None:
        if len(self.headings) < 3:
            raise InputError(f"{self.name}, line 1: a header line of three columns or more is wanted")
        if not any(letter.isalpha() for letter in "".join(self.headings[2:])):
            raise InputError(
                f"{self.name}, line 1: a header line is wanted, with a letter in a heading above the numbers"
            )

    def _all_rows(self) -> Iterator[Row]:
        line = self._reader.line_num + 1
        try:
            for cells in self._reader:
                yield Row(line, cells)
                line = self._reader.line_num + 1
        except csv.Error as error:
            raise InputError(f"{self.name}, line {line}: this row cannot be read; is a quote open? ({error})") from None

    def rows(self) -> Iterator[Row]:
        return (row for row in self._all_rows() if row.cells)

    def wrong_cell(self, row: Row, column: int, fault: str) -> InputError:
        """The error for a cell; columns count from 1, as a person counts them."""
        heading = "".join(self.headings[column - 1 : column])
        named = f" ({heading})" if heading else ""
        return InputError(f"{self.name}, line {row.line}, column {column}{named}: {fault}")

    def demand_cells(self, row: Row) -> None:
        """No cell is empty, none is without a heading, and there are the two that every row has."""
        if len(row.cells) > len(self.headings):
            raise self.wrong_cell(row, len(self.headings) + 1, "there is no heading for this cell")
        for column, cell in enumerate(row.cells, 1):
            if not cell.strip():
                raise self.wrong_cell(row, column, "the cell is empty")
        if len(row.cells) < 2:
            raise self.wrong_cell(row, 2, "the cell is missing")

    def numbers_from(self, row: Row, column: int) -> array[int]:
        """The numbers that stand in a row from a column on."""
        cells = enumerate(row.cells[column - 1 :], column)
        return array("I", [self.number_in(row, at, cell) for at, cell in cells])

    def number_in(self, row: Row, column: int, cell: str) -> int:
        try:
            return number_of(cell.strip(), MOST_WORD)
        except InputError as error:
            raise self.wrong_cell(row, column, str(error)) from None


def _delimiter_of(header: str) -> str:
    bare = re.sub('"[^"]*("|$)', "", header)
    return next((delimiter for delimiter in DELIMITERS.values() if delimiter in bare), ",")


def _readable(cell: str) -> str:
    """A cell in a message: bytes that are no UTF-8 are shown as such."""
    return cell.encode("utf-8", "surrogateescape").decode("utf-8", "backslashreplace")


# Loggers

# A logger, or why its pattern was refused.
Known = Union[Logger, Refusal]


def read_loggers(table: Table) -> Dict[str, Known]:
    """A row is a name, a modulus and the weights of a pattern. Each pattern is inverted here, once."""
    loggers: Dict[str, Known] = {}
    for row in table.rows():
        table.demand_cells(row)
        name = row.cells[0].strip()
        if name in loggers:
            raise table.wrong_cell(row, 1, f"there are two loggers '{_readable(name)}'")
        loggers[name] = _read_logger(table, row, name)
    return loggers


def _read_logger(table: Table, row: Row, name: str) -> Known:
    modulus = table.number_in(row, 2, row.cells[1])
    weights = table.numbers_from(row, 3)
    try:
        return Logger(weights, modulus, name=f"logger {name}")
    except Refusal as refusal:
        return refusal


# Records


class Tally(NamedTuple):
    """How many records there were, how many of them were refused, and the number that the first of these got."""

    records: int
    refused: int
    first: int


class _Plain:
    """A logger for rows that need no second look: their form is made once, and so are the buffers."""

    def __init__(self, logger: Logger, form: str) -> None:
        self._size = len(logger)
        self._steady = Steady(logger)
        self._form = form

    def text(self, cells: Cells) -> str | None:
        """What comes after a record's id, or None where a cell is not plain digits or the row is refused."""
        digits = "".join(cells)
        if len(cells) != self._size or not digits.isdigit() or not digits.isascii():
            return None
        try:
            counts = self._steady.unmix(map(int, cells))
        except (OverflowError, ValueError):
            return None
        return None if counts is None else self._form % tuple(counts)


class Unmixing:
    """Records on their way to counts: a row in, a row out, in order."""

    def __init__(self, loggers: Dict[str, Known], records: Table) -> None:
        self._loggers = loggers
        self._records = records
        self._columns = len(records.headings)
        self._delimiter = records.delimiter
        self._special = re.compile(f'^ |[{records.delimiter}"\r\n]').search
        known = {name: logger for name, logger in loggers.items() if isinstance(logger, Logger)}
        self._widest = max(map(len, known.values()), default=0)
        self._plain = {name: _Plain(logger, self._form(name, len(logger))) for name, logger in known.items()}

    def _form(self, name: str, size: int) -> str:
        """What comes after a record's id: its logger, an empty cell for a refusal, the counts."""
        cells = [self._quoted(name).replace("%", "%%"), "", *["%d"] * size]
        return self._delimiter.join([*cells, *[""] * (self._widest - size)]) + "\n"

    def run(self, write: Callable[[str], object], progress: Callable[[int], object]) -> Tally:
        write(self._line([*self._records.headings[:2], "refused", *map("count {}".format, range(self._widest))]))
        records = refused = first = 0
        for row in self._records.rows():
            text = self._plain_text(row.cells)
            if text is None:
                text, number = self._careful_text(row)
                refused += number > 0
                first = first or number
            write(text)
            records += 1
            if records % 1024 == 0:
                progress(records)
        return Tally(records, refused, first)

    def _plain_text(self, cells: Cells) -> str | None:
        """A row that needs no second look, or None."""
        plain = self._plain.get(cells[1]) if 1 < len(cells) <= self._columns else None
        text = plain.text(cells[2:]) if plain and cells[0].strip() else None
        return f"{self._quoted(cells[0])}{self._delimiter}{text}" if text else None

    def _careful_text(self, row: Row) -> tuple[str, int]:
        """Any other row, and 0 or the number of its refusal."""
        self._records.demand_cells(row)
        logger = self._logger_named(row)
        readings = self._records.numbers_from(row, 3)
        if isinstance(logger, Refusal):
            return self._refused_text(row, logger)
        try:
            line = f"line {row.line}"
            counts = logger.unmix_named(readings, line, readings_part(f"{line} has", f" of {line}"))
        except Refusal as refusal:
            return self._refused_text(row, refusal)
        return self._line([*row.cells[:2], "", *map(str, counts)], self._widest - len(counts)), 0

    def _refused_text(self, row: Row, refusal: Refusal) -> tuple[str, int]:
        return self._line([*row.cells[:2], str(refusal)], self._widest), refusal.number

    def _logger_named(self, row: Row) -> Known:
        name = row.cells[1].strip()
        if name not in self._loggers:
            raise self._records.wrong_cell(row, 2, f"there is no logger '{_readable(name)}'")
        return self._loggers[name]

    def _quoted(self, cell: str) -> str:
        return '"' + cell.replace('"', '""') + '"' if self._special(cell) else cell

    def _line(self, cells: Cells, empty: int = 0) -> str:
        return self._delimiter.join(map(self._quoted, cells)) + self._delimiter * empty + "\n"
