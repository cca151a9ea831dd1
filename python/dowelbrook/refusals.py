"""What a call refuses, in words: with what it was given, as a person calls it."""

from __future__ import annotations

import math
from typing import Callable, Dict, NamedTuple, Optional, Sequence, Tuple

from . import numbers
from .numbers import LEAST_MODULUS, MOST_ENTRIES, MOST_FACTORS, MOST_MODULUS, NUMBERS


class Refusal(Exception):
    """Why a call was refused. Its text is in words; its fields are the numbers.

    number and name are the table's; ring (from 1), place (from 0) and prime are told by some numbers, and None by
    the others. A place is that of an entry of the ring; EXPONENT, PRIME and ORDER tell that of an entry of the factor
    list, and a sheet's refusal an offset in bytes.
    """

    __module__ = "dowelbrook"

    def __init__(
        self,
        number: int,
        ring: int | None = None,
        place: int | None = None,
        prime: int | None = None,
        words: str | None = None,
    ) -> None:
        super().__init__(number, ring, place, prime, words)
        self.number = number
        self.name = NUMBERS[number].name
        self.ring = ring
        self.place = place
        self.prime = prime
        self.words = NUMBERS[number].meaning if words is None else words

    def __str__(self) -> str:
        at = f" at byte {self.place}" if "offset" in NUMBERS[self.number].tells else ""
        return f"refused {self.number}{at}: {self.words}"


class Singular(Refusal):
    """A pattern has no inverse. Raised by invert and Logger it has the ghost, raised by the other calls None."""

    __module__ = "dowelbrook"

    ghost: Optional[Sequence[int]] = None


THERE_ARE = "there are"


class Part(NamedTuple):
    """How a ring is spoken of, as in "the pattern has 3 weights", "1 weight", "weight 2 of the pattern"."""

    has: str
    entry: str
    entries: str
    of: str = ""

    @property
    def has_one(self) -> str:
        return "there is" if self.has == THERE_ARE else self.has


def ring_part(name: str) -> Part:
    return Part(f"{name} has", "entry", "entries", f" of {name}")


def pattern_part(name: str) -> Part:
    return Part(f"{name} has", "weight", "weights", f" of {name}")


def readings_part(has: str, of: str) -> Part:
    return Part(has, "reading", "readings", of)


PATTERN = pattern_part("the pattern")
READINGS = readings_part(THERE_ARE, "")


class Told(NamedTuple):
    """What the C door tells beside the number; what is not told is 0."""

    ring: int = 0
    place: int = 0
    prime: int = 0


class Asked(NamedTuple):
    """What a call was given, for the words of its refusal: its rings, its modulus and what else it can refuse."""

    parts: Sequence[Part]
    rings: Sequence[Sequence[int]]
    m: int
    factors: Sequence[Tuple[int, int]] = ()
    divisor: int = 0
    size: int | None = None


def factors_text(factors: Sequence[Tuple[int, int]]) -> str:
    return " ".join(f"{prime}^{exponent}" for prime, exponent in factors)


def _empty_words(asked: Asked, _: Told) -> str:
    part = asked.parts[0]
    return f"{part.has} no {part.entries}"


def _counted(asked: Asked, ring: int) -> str:
    part, entries = asked.parts[ring - 1], len(asked.rings[ring - 1])
    return f"{part.has_one} 1 {part.entry}" if entries == 1 else f"{part.has} {entries:,} {part.entries}"


def _large_words(asked: Asked, _: Told) -> str:
    return f"{_counted(asked, 1)}, more than {MOST_ENTRIES:,}"


def _mismatch_words(asked: Asked, told: Told) -> str:
    return f"{_counted(asked, told.ring)}, but {_counted(asked, 1)}"


def _modulus_words(asked: Asked, _: Told) -> str:
    return f"the modulus {asked.m} is not from {LEAST_MODULUS} to {MOST_MODULUS:,}"


def _factors_words(asked: Asked, _: Told) -> str:
    if not asked.factors:
        return "the factor list is empty"
    return f"the factor list has {len(asked.factors):,} entries, more than {MOST_FACTORS}"


def _entry(asked: Asked, told: Told) -> str:
    """The list is shown, so that it is plain which entry is meant: the first is entry 0."""
    return f"entry {told.place} of the factor list {factors_text(asked.factors)}"


def _number_at(asked: Asked, place: int) -> int:
    number, _ = asked.factors[place]
    return number


def _exponent_words(asked: Asked, told: Told) -> str:
    return f"{_entry(asked, told)}: the exponent of {_number_at(asked, told.place)} is 0"


def _prime_words(asked: Asked, told: Told) -> str:
    return f"{_entry(asked, told)}: {_number_at(asked, told.place)} is not a prime"


def _order_words(asked: Asked, told: Told) -> str:
    number, before = _number_at(asked, told.place), _number_at(asked, told.place - 1)
    return f"{_entry(asked, told)}: {number} is not above {before}, the prime before"


# From here on a product is not written out: it may have thousands of digits.
LONG_PRODUCT = 10**20


def _product_words(asked: Asked, _: Told) -> str:
    product = math.prod(prime**exponent for prime, exponent in asked.factors)
    made = f"{product}, not to" if product < LONG_PRODUCT else "far more than"
    return f"the factor list {factors_text(asked.factors)} multiplies to {made} the modulus {asked.m}"


def _coefficient_words(asked: Asked, told: Told) -> str:
    part, value = asked.parts[told.ring - 1], asked.rings[told.ring - 1][told.place]
    return f"{part.entry} {told.place}{part.of} is {value}, not below the modulus {asked.m}"


def _divisor_words(asked: Asked, _: Told) -> str:
    if asked.size is None:
        return f"{asked.divisor} is not a divisor of the modulus {asked.m} from 2 up"
    entries = len(asked.rings[0])
    return f"a ring of {entries:,} cannot be folded onto {asked.size:,}, which is not a divisor of {entries:,}"


def _singular_words(asked: Asked, told: Told) -> str:
    has, n = asked.parts[told.ring - 1].has, len(asked.rings[told.ring - 1])
    return f"{has} no inverse modulo {asked.m}: it shares a factor with x^{n} - 1 modulo the prime {told.prime}"


# What is said of each number. Python and the command make every output, so that ROOM is never answered, and give each
# prime with its exponent, so that FACTORS never is for lists of unequal length.
_WORDS: Dict[int, Callable[[Asked, Told], str]] = {
    numbers.EMPTY: _empty_words,
    numbers.LARGE: _large_words,
    numbers.MISMATCH: _mismatch_words,
    numbers.MODULUS: _modulus_words,
    numbers.FACTORS: _factors_words,
    numbers.COEFFICIENT: _coefficient_words,
    numbers.DIVISOR: _divisor_words,
    numbers.SINGULAR: _singular_words,
    numbers.EXPONENT: _exponent_words,
    numbers.PRIME: _prime_words,
    numbers.ORDER: _order_words,
    numbers.PRODUCT: _product_words,
}


def refusal_of(number: int, told: Told, asked: Asked) -> Refusal:
    """The exception for a refusal of the C door."""
    kind = Singular if number == numbers.SINGULAR else Refusal
    tells = NUMBERS[number].tells
    return kind(
        number,
        told.ring if "ring" in tells else None,
        told.place if "place" in tells else None,
        told.prime if "prime" in tells else None,
        _WORDS[number](asked, told) if number in _WORDS else None,
    )
