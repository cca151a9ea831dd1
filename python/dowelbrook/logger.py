"""A logger: its pattern is inverted once, and then row after row is unmixed."""

from __future__ import annotations

from array import array
from typing import Any, Iterable, Iterator, cast

from .calls import FactorList, Factors, inverted, mixed
from .door import function
from .refusals import READINGS, THERE_ARE, Part, pattern_part, readings_part
from .rings import R, Ring, lend, pointed, room, word, words_of

COUNTS = Part(THERE_ARE, "count", "counts")


class Logger:
    """A pattern modulo m whose inverse is known. A pattern that is refused or singular raises at once.

    >>> north = Logger([1, 2, 0], 10)
    >>> north.unmix([1, 2, 5])
    [1, 0, 5]
    >>> north.hear([1, 0, 5])
    [1, 2, 5]
    >>> list(north.unmix_rows([[1, 2, 5], [3, 3, 3]]))
    [[1, 0, 5], [1, 1, 1]]

    name is what its refusals call it:

    >>> Logger([1, 12], 10, name="logger south")
    Traceback (most recent call last):
    dowelbrook.Refusal: refused 6: weight 1 of logger south is 12, not below the modulus 10
    """

    def __init__(self, pattern: Ring, m: int, factors: Factors | None = None, name: str = "the pattern") -> None:
        self._m = word(m, "the modulus")
        listed = FactorList(self._m, factors)
        lent = lend(pattern, name)
        self._part = pattern_part(name)
        self._name = name
        self._factors = listed.pairs
        self._inverse = words_of(inverted(lent, self._m, listed, self._part), "the inverse")
        self._pattern = words_of(lent.values, name)

    @property
    def m(self) -> int:
        return self._m

    @property
    def factors(self) -> list[tuple[int, int]]:
        return list(self._factors)

    @property
    def pattern(self) -> list[int]:
        return list(self._pattern)

    @property
    def inverse(self) -> list[int]:
        return list(self._inverse)

    @property
    def name(self) -> str:
        return self._name

    def __len__(self) -> int:
        """How many feeders it hears."""
        return len(self._pattern)

    def __repr__(self) -> str:
        return f"Logger({self.pattern}, {self.m})"

    def __reduce__(self) -> tuple[Any, ...]:
        return type(self), (self.pattern, self.m, self.factors, self.name)

    def unmix(self, readings: R) -> R:
        """The counts behind readings."""
        return self.unmix_named(readings, "the readings", READINGS)

    def hear(self, counts: R) -> R:
        """The readings of counts."""
        lent = lend(self._pattern, self.name), lend(counts, "the counts")
        return cast(R, mixed(*lent, self.m, (self._part, COUNTS)))

    def unmix_rows(self, rows: Iterable[R]) -> Iterator[R]:
        """The counts behind each row of readings, one after the other.

        A refusal names the row, from 0, and ends the iteration; to go on after one, call unmix for each row.
        """
        for place, row in enumerate(rows):
            yield self.unmix_named(row, f"row {place}", readings_part(f"row {place} has", f" of row {place}"))

    def unmix_named(self, readings: R, name: str, part: Part) -> R:
        """unmix for readings that errors call by name, and refusals by part."""
        lent = lend(self._inverse, "the inverse"), lend(readings, name)
        return cast(R, mixed(*lent, self.m, (self._part, part)))


class Steady:
    """A logger with buffers that are made once, for row after row of as many readings as it has weights."""

    def __init__(self, logger: Logger) -> None:
        inverse = words_of(logger.inverse, "the inverse")
        self._readings, self._counts = room(len(inverse)), room(len(inverse))
        self._mix = function("mix")
        self._arguments = (*pointed(inverse), *pointed(self._readings), logger.m, *pointed(self._counts))

    def unmix(self, readings: Iterable[int]) -> array[int] | None:
        """The counts, which stand until the next row, or None where the row is refused."""
        self._readings[:] = array("I", readings)
        return None if self._mix(*self._arguments).number else self._counts
