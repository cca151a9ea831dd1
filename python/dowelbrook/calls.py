"""The calls of the C door as functions on rings."""

from __future__ import annotations

import functools
from typing import Any, Sequence, Tuple, cast

from . import refusals
from .door import function
from .numbers import LEAST_MODULUS, MODULUS, MOST_MODULUS
from .refusals import PATTERN, READINGS, Asked, Part, Singular, Told
from .rings import MOST_BYTE, Lent, R, Ring, exponents_of, lend, pointed, room, whole, word

Factors = Sequence[Tuple[int, int]]

RING = refusals.ring_part("the ring")
RING_A, RING_B = refusals.ring_part("ring a"), refusals.ring_part("ring b")
FOUR_NAMES = ("the first pattern", "the first readings", "the second pattern", "the second readings")
FOUR_PARTS = (
    refusals.pattern_part(FOUR_NAMES[0]),
    refusals.readings_part("the first logger has", " of the first logger"),
    refusals.pattern_part(FOUR_NAMES[2]),
    refusals.readings_part("the second logger has", " of the second logger"),
)


class FactorList:
    """A factor list as the C door takes it."""

    def __init__(self, m: int, factors: Factors | None) -> None:
        self.pairs = _own_factors(m) if factors is None else _checked(factors)
        self._primes = lend(tuple(prime for prime, _ in self.pairs), "the primes")
        self._exponents = exponents_of([exponent for _, exponent in self.pairs])

    def lent(self) -> tuple[Any, ...]:
        count = len(self.pairs)
        return self._primes.pointer, count, self._exponents, count


def _checked(factors: Factors) -> tuple[tuple[int, int], ...]:
    if not isinstance(factors, (list, tuple)):
        raise TypeError(f"factors: a list of pairs of a prime and its exponent is wanted, not {factors!r}")
    return tuple(_checked_pair(place, pair) for place, pair in enumerate(factors))


def _checked_pair(place: int, pair: object) -> tuple[int, int]:
    if not isinstance(pair, (list, tuple)) or len(pair) != 2:
        raise TypeError(f"factor {place}: a pair of a prime and its exponent is wanted, not {pair!r}")
    return word(pair[0], f"the prime of factor {place}"), whole(pair[1], MOST_BYTE, f"the exponent of factor {place}")


@functools.lru_cache(maxsize=1024)
def _own_factors(m: int) -> tuple[tuple[int, int], ...]:
    """The factor list of a modulus; of what can be none an empty one, since the call refuses that first."""
    return tuple(divided_out(m)) if LEAST_MODULUS <= m <= MOST_MODULUS else ()


def divided_out(m: int) -> list[tuple[int, int]]:
    """The primes of m, rising, with their exponents, by trial division."""
    pairs = []
    prime = 2
    while prime * prime <= m:
        exponent = _exponent_of(prime, m)
        if exponent:
            pairs.append((prime, exponent))
            m //= prime**exponent
        prime += 1
    return pairs + [(m, 1)] if m > 1 else pairs


def _exponent_of(prime: int, m: int) -> int:
    exponent = 0
    while m % prime ** (exponent + 1) == 0:
        exponent += 1
    return exponent


def _demand_done(answer: Any, parts: Sequence[Part], rings: Sequence[Lent], m: int, **more: Any) -> None:
    """Raises what the C door refused."""
    if answer.number:
        for ring in rings:
            ring.release()
        asked = Asked(parts, [ring.values for ring in rings], m, **more)
        raise refusals.refusal_of(answer.number, Told(answer.ring, answer.place, answer.prime), asked)


def mix(a: Ring, b: R, m: int) -> R:
    """The product of two rings modulo m: what a logger with pattern a reads of counts b.

    >>> mix([1, 2, 0], [1, 0, 5], 10)
    [1, 2, 5]
    """
    modulus = word(m, "the modulus")
    return cast(R, mixed(lend(a, "ring a"), lend(b, "ring b"), modulus, (RING_A, RING_B)))


def mixed(a: Lent, b: Lent, m: int, parts: Sequence[Part]) -> Any:
    """mix for rings that are lent; parts are what a refusal calls them."""
    out = room(a.length)
    answer = function("mix")(a.pointer, a.length, b.pointer, b.length, m, *pointed(out))
    _demand_done(answer, parts, (a, b), m)
    return b.given_back(out, m)


def reduce(a: R, m: int, divisor: int) -> R:
    """Each entry's remainder by a divisor of m.

    >>> reduce([5, 6], 8, 4)
    [1, 2]
    """
    modulus, by, ring = word(m, "the modulus"), word(divisor, "the divisor"), lend(a, "the ring")
    out = room(ring.length)
    answer = function("reduce")(ring.pointer, ring.length, modulus, by, *pointed(out))
    _demand_done(answer, (RING,), (ring,), modulus, divisor=by)
    return cast(R, ring.given_back(out, modulus))


def fold(a: R, m: int, size: int) -> R:
    """Folds a ring onto `size` entries: entry k is the sum of those whose place is k modulo size.

    >>> fold([1, 2, 3, 4], 10, 2)
    [4, 6]
    """
    modulus, onto, ring = word(m, "the modulus"), word(size, "the size to fold onto"), lend(a, "the ring")
    # A size above the ring's is no divisor, whichever it is: one entry more is enough to be refused.
    out = room(min(onto, ring.length + 1))
    answer = function("fold")(ring.pointer, ring.length, modulus, *pointed(out))
    _demand_done(answer, (RING,), (ring,), modulus, size=onto)
    return cast(R, ring.given_back(out, modulus))


def invert(f: R, m: int, factors: Factors | None = None) -> R:
    """The inverse of a pattern; where there is none, a Singular with the ghost is raised.

    >>> for m, f in (4, [1, 2, 0]), (8, [1, 2]), (9, [2, 3]), (5, [1, 1, 0]), (6, [0, 1, 0]), (1000, [3]):
    ...     print(m, f, "has inverse", invert(f, m))
    4 [1, 2, 0] has inverse [1, 2, 0]
    8 [1, 2] has inverse [5, 6]
    9 [2, 3] has inverse [5, 6]
    5 [1, 1, 0] has inverse [3, 2, 3]
    6 [0, 1, 0] has inverse [0, 0, 1]
    1000 [3] has inverse [667]

    >>> for m, f in (10, [1, 1]), (6, [1, 1, 0]), (1000, [1, 1, 1]), (1000, [3, 2, 0]), (1000, [0]):
    ...     try:
    ...         invert(f, m)
    ...     except Singular as singular:
    ...         print(m, f, "prime", singular.prime, "ghost", singular.ghost)
    10 [1, 1] prime 2 ghost [5, 5]
    6 [1, 1, 0] prime 2 ghost [3, 3, 3]
    1000 [1, 1, 1] prime 2 ghost [500, 500, 0]
    1000 [3, 2, 0] prime 5 ghost [200, 200, 200]
    1000 [0] prime 2 ghost [500]
    """
    modulus = word(m, "the modulus")
    listed = FactorList(modulus, factors)
    return cast(R, inverted(lend(f, "the pattern"), modulus, listed, PATTERN))


def inverted(f: Lent, m: int, factors: FactorList, part: Part) -> Any:
    """invert for a pattern that is lent; part is what a refusal calls it."""
    out = room(f.length)
    answer = function("invert")(f.pointer, f.length, m, *factors.lent(), *pointed(out))
    try:
        _demand_done(answer, (part,), (f,), m, factors=factors.pairs)
    except Singular as singular:
        singular.ghost = f.given_back(out, m)
        raise
    return f.given_back(out, m)


def unmix(f: Ring, y: R, m: int, factors: Factors | None = None) -> R:
    """The counts behind readings y through pattern f.

    >>> unmix([1, 2], [3, 2], 8), unmix([3, 2], [1, 2], 8)
    ([3, 4], [3, 4])

    The factor list of m, pairs of a prime and its exponent, is worked out unless it is given:

    >>> unmix([1, 2, 0], [1, 2, 5], 10, factors=[(2, 1), (5, 1)])
    [1, 0, 5]

    Of a list that is given, the first entry that is bad is told, counted from 0:

    >>> unmix([1, 2, 0], [1, 2, 5], 18, factors=[(2, 1), (9, 1)])
    Traceback (most recent call last):
    dowelbrook.Refusal: refused 11: entry 1 of the factor list 2^1 9^1: 9 is not a prime
    """
    modulus = word(m, "the modulus")
    listed = FactorList(modulus, factors)
    rings = pattern, readings = lend(f, "the pattern"), lend(y, "the readings")
    out = room(pattern.length)
    answer = function("unmix")(*_pointers(rings), modulus, *listed.lent(), *pointed(out))
    _demand_done(answer, (PATTERN, READINGS), rings, modulus, factors=listed.pairs)
    return cast(R, readings.given_back(out, modulus))


def same_feeding(f1: Ring, y1: Ring, f2: Ring, y2: Ring, m: int, factors: Factors | None = None) -> bool:
    """Whether readings y1 through pattern f1 and y2 through f2 are of the same feeding: the counts behind them are
    equal, and at least one of them is not zero.

    >>> same_feeding([1, 2], [3, 2], [3, 2], [1, 2], 8)
    True
    >>> same_feeding([1, 2], [3, 2], [3, 2], [1, 3], 8)
    False

    An idle tank, in which every count is zero, is no feeding, and not the same one as any tank, itself included:

    >>> same_feeding([1, 2], [0, 0], [3, 2], [0, 0], 8)
    False
    """
    modulus = word(m, "the modulus")
    listed = FactorList(modulus, factors)
    rings = [lend(ring, name) for ring, name in zip((f1, y1, f2, y2), FOUR_NAMES)]
    verdict = function("same_feeding")(*_pointers(rings), modulus, *listed.lent())
    _demand_done(verdict, FOUR_PARTS, rings, modulus, factors=listed.pairs)
    return bool(verdict.same)


def _pointers(rings: Sequence[Lent]) -> list[Any]:
    """Each pointer with its length."""
    return [item for ring in rings for item in (ring.pointer, ring.length)]


def factor(m: int) -> list[tuple[int, int]]:
    """The factor list of a modulus, pairs of a prime and its exponent.

    >>> factor(12)
    [(2, 2), (3, 1)]
    >>> factor(1)
    Traceback (most recent call last):
    dowelbrook.Refusal: refused 4: the modulus 1 is not from 2 to 1,000,000
    """
    modulus = word(m, "the modulus")
    pairs = _own_factors(modulus)
    if not pairs:
        raise refusals.refusal_of(MODULUS, Told(), Asked((), (), modulus))
    return list(pairs)
