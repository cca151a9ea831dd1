"""The table of numbers: what each answer is called, what it tells, what it means and what to do about it.

It stands here once: exceptions, messages and `dowelbrook explain` read it. A test holds names, numbers, what they tell
and the limits to the C header.
"""

from __future__ import annotations

from typing import NamedTuple, Tuple

MOST_ENTRIES = 1_024
LEAST_MODULUS, MOST_MODULUS = 2, 1_000_000
MOST_FACTORS = 7

DONE = 0
EMPTY, LARGE, MISMATCH, MODULUS, FACTORS, COEFFICIENT, ROOM, DIVISOR, SINGULAR = range(1, 10)
EXPONENT, PRIME, ORDER, PRODUCT = range(10, 14)
CUT, TAG, LENGTH, MISSING, VERSION = range(20, 25)


class Number(NamedTuple):
    """A row. What comes with the number is told: rings count from 1, places and a sheet's bytes from 0."""

    number: int
    name: str
    tells: Tuple[str, ...]
    meaning: str
    advice: str


TABLE = (
    Number(
        DONE,
        "DONE",
        (),
        "the call did its work",
        "Nothing.",
    ),
    Number(
        EMPTY,
        "EMPTY",
        (),
        "ring 1 has no entry",
        "Give at least one entry; a ring has as many as the tank has feeders.",
    ),
    Number(
        LARGE,
        "LARGE",
        (),
        f"ring 1 has more than {MOST_ENTRIES:,} entries",
        "Look whether two rows were joined, or rows and columns exchanged.",
    ),
    Number(
        MISMATCH,
        "MISMATCH",
        ("ring",),
        "another ring's length differs from ring 1's",
        "Give every ring of a call as many entries as the first; a missing or doubled cell shows as this.",
    ),
    Number(
        MODULUS,
        "MODULUS",
        (),
        f"the modulus is below {LEAST_MODULUS} or above {MOST_MODULUS:,}",
        "Give the number at which the logger's counters wrap.",
    ),
    Number(
        FACTORS,
        "FACTORS",
        (),
        f"the factor list has no entry, or more than {MOST_FACTORS}, or not as many primes as exponents",
        "Leave the factors out, or take what `dowelbrook factor` prints: primes in rising order with their exponents. "
        "Only callers from C see this for lists of unequal length.",
    ),
    Number(
        COEFFICIENT,
        "COEFFICIENT",
        ("ring", "place"),
        "an entry is not below the modulus",
        "Look at the entry told: a counter that wraps at the modulus never shows it. It may be a typing error, or "
        "the modulus may be another logger's.",
    ),
    Number(
        ROOM,
        "ROOM",
        (),
        "the output's length is not that of ring 1",
        "Lend an output as long as ring 1. Only callers from C see this; Python and the command make the output.",
    ),
    Number(
        DIVISOR,
        "DIVISOR",
        (),
        "the number to reduce by is not a divisor of the modulus from 2 up, or the ring cannot be folded onto so many",
        "Reduce by a divisor of the modulus; fold onto a divisor of the ring's length.",
    ),
    Number(
        SINGULAR,
        "SINGULAR",
        ("ring", "prime"),
        "a pattern has no inverse modulo m: modulo the prime told it shares a factor with x^n - 1",
        "No counts can be told from this logger's readings alone: its ghost can be added to any counts unheard. "
        "Use the other logger of the tank, or another pattern.",
    ),
    Number(
        EXPONENT,
        "EXPONENT",
        ("place",),
        "an exponent in the factor list is 0",
        "Leave out a prime that does not divide the modulus, and give exponent 1 to one that divides it once; "
        "`dowelbrook factor` prints the list that is right.",
    ),
    Number(
        PRIME,
        "PRIME",
        ("place",),
        "a number in the factor list is not a prime",
        "Look at the entry told, and write it by its primes, as 3^2 for 9; 0 and 1 are not primes. `dowelbrook factor` "
        "prints the list that is right.",
    ),
    Number(
        ORDER,
        "ORDER",
        ("place",),
        "a prime in the factor list is not above the one before",
        "Put the primes in rising order, each once, as 2^2 for 2^1 2^1; `dowelbrook factor` prints the list that is "
        "right.",
    ),
    Number(
        PRODUCT,
        "PRODUCT",
        (),
        "the powers in the factor list do not multiply to the modulus",
        "Look for a prime that is missing or does not belong there, for a wrong exponent, or for the modulus of "
        "another logger; `dowelbrook factor` prints the list that is right.",
    ),
    Number(
        CUT,
        "CUT",
        ("offset",),
        "a sheet's field is cut: its header or its value ends too early",
        "Fetch the sheet again; `dowelbrook show` shows what is there.",
    ),
    Number(
        TAG,
        "TAG",
        ("offset",),
        "a sheet's tag is not 1 to 5, or not above the one before",
        "Put the fields in the order of their tags, each once.",
    ),
    Number(
        LENGTH,
        "LENGTH",
        ("offset",),
        "the length of a sheet's field is wrong",
        f"Readings must be as long as the pattern; there are at most {MOST_FACTORS} factors of 5 bytes and at most "
        f"{MOST_ENTRIES:,} entries of 4.",
    ),
    Number(
        MISSING,
        "MISSING",
        ("offset",),
        "a field that every sheet must have is missing",
        "Give version, modulus, factors and pattern, in this order; `dowelbrook make` does.",
    ),
    Number(
        VERSION,
        "VERSION",
        ("offset",),
        "the sheet's version is not 1",
        "The sheet is written for another reader; ask its writer for a sheet of version 1.",
    ),
)

NUMBERS = {row.number: row for row in TABLE}
