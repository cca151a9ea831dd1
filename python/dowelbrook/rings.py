"""Rings as Python has them, lent to the C door, and results as the kind that was given.

A buffer of 32-bit words is passed as it is (one that is not aligned or may not be written is copied whole); other
whole numbers are put into words. A result has the type of the numbers that were given if that type can hold every
number below the modulus, and else 32-bit words: nothing wraps. What is no sequence of whole numbers is told by
TypeError or ValueError.
"""

from __future__ import annotations

import functools
import operator
import sys
from array import array
from collections.abc import Sequence
from ctypes import Array, addressof, c_uint8, c_uint32
from typing import Any, Callable, Iterable, Protocol, SupportsIndex, TypeVar

MOST_WORD = 0xFFFF_FFFF
MOST_BYTE = 0xFF

_WORDS = "I"
_WHOLE = "bBhHiIlLqQ"
_SIZE = array(_WORDS).itemsize

# The formats of a view of words that Python cannot index by itself.
_FOREIGN_WORDS = ("@I", "=I", "<I" if sys.byteorder == "little" else ">I")


class Ring(Protocol):
    """What can be a ring: a list, a tuple, an array, a NumPy array, a memoryview, .. of whole numbers."""

    def __len__(self) -> int:
        ...

    def __getitem__(self, place: int, /) -> SupportsIndex:
        ...


R = TypeVar("R", bound=Ring)


@functools.lru_cache(maxsize=4096)
def _words_type(length: int) -> type[Array[c_uint32]]:
    return c_uint32 * length


# Makes a result, whose numbers are below a modulus, the kind that was given.
GiveBack = Callable[["array[int]", int], Any]


class Lent:
    """A ring as the C door takes it, and the way back to the kind that was given."""

    __slots__ = ("pointer", "length", "values", "given_back")

    def __init__(self, buffer: Any, values: Any, given_back: GiveBack) -> None:
        self.pointer, self.length = pointed(buffer)
        self.values = values
        self.given_back = given_back

    def release(self) -> None:
        """Lets go of the buffer: as long as it is pointed to, its owner cannot make it longer or shorter."""
        self.pointer = None


def pointed(buffer: Any) -> tuple[Any, int]:
    """A pointer to a buffer of words, which holds on to it, and its length.

    A buffer of no words may have no address, and the C door wants one: an array of ctypes' own always has.
    """
    length = len(buffer)
    kind = _words_type(length)
    view = memoryview(buffer)
    if not length:
        return kind(), 0
    if view.readonly:
        return kind.from_buffer_copy(view), length
    pointer = kind.from_buffer(view)
    return (kind.from_buffer_copy(view) if addressof(pointer) % _SIZE else pointer), length


def room(length: int) -> array[int]:
    """An output of so many words."""
    return array(_WORDS, bytes(_SIZE * length))


def lend(ring: Ring, name: str) -> Lent:
    """Takes a ring; name is what a message calls it, such as "the pattern"."""
    if isinstance(ring, array):
        return _lend_array(ring, name)
    if hasattr(ring, "__array__"):
        return _lend_numpy(ring, name)
    if isinstance(ring, memoryview):
        return _lend_view(ring, name)
    if isinstance(ring, (str, bytes, bytearray)) or not isinstance(ring, Sequence):
        raise TypeError(
            f"{name}: a sequence of whole numbers is wanted, such as a list, not of type {type(ring).__name__}"
        )
    kind = tuple if isinstance(ring, tuple) else list
    return Lent(words_of(ring, name), ring, lambda words, _: kind(words))


def _is_words(code: str, size: int) -> bool:
    return code in "IL" and size == _SIZE


def _lend_array(ring: array[int], name: str) -> Lent:
    _demand_whole(ring.typecode in _WHOLE, name, f"an array of type code {ring.typecode!r}")
    code = ring.typecode
    buffer = ring if _is_words(code, ring.itemsize) else words_of(ring, name)
    return Lent(buffer, ring, lambda words, m: _as_array(words, m, code))


def _as_array(words: array[int], m: int, code: str) -> array[int]:
    bits = 8 * array(code).itemsize - code.islower()
    return array(code, words) if code != _WORDS and _holds(2**bits - 1, m) else words


def _holds(most: int, m: int) -> bool:
    """Whether numbers up to most can be every number below m."""
    return m - 1 <= most


def _lend_view(ring: memoryview, name: str) -> Lent:
    _demand_one_dimension(ring.ndim, name)
    if ring.format in _FOREIGN_WORDS:
        ring = memoryview(array(_WORDS, ring.tobytes()))
    code = ring.format
    _demand_whole(code in tuple(_WHOLE), name, f"a memoryview of format {code!r}")
    as_it_is = _is_words(code, ring.itemsize) and ring.c_contiguous
    buffer = ring if as_it_is else words_of(ring.tolist(), name)
    return Lent(buffer, ring, lambda words, m: memoryview(_as_array(words, m, code)))


def _lend_numpy(ring: Any, name: str) -> Lent:
    """A NumPy array, or what NumPy can take as one without a change, such as a column of pandas."""
    import numpy

    _demand_whole(not isinstance(ring, numpy.ma.MaskedArray), name, "a masked array")
    given = numpy.asarray(ring)
    _demand_one_dimension(given.ndim, name)
    _demand_whole(given.dtype.kind in "iu", name, f"a NumPy array of {given.dtype}")
    as_it_is = given.dtype == numpy.uint32 and given.flags.c_contiguous
    if not as_it_is and given.size:
        _demand_in_range(given, name)
    buffer = given if as_it_is else given.astype(numpy.uint32)
    most = int(numpy.iinfo(given.dtype).max)

    def given_back(words: array[int], m: int) -> Any:
        return numpy.frombuffer(words, dtype=numpy.uint32).astype(given.dtype if _holds(most, m) else numpy.uint32)

    return Lent(buffer, given, given_back)


def _demand_one_dimension(dimensions: int, name: str) -> None:
    if dimensions != 1:
        raise ValueError(f"{name}: one dimension is wanted, not {dimensions}")


def _demand_whole(holds: bool, name: str, instead: str) -> None:
    if not holds:
        raise TypeError(f"{name}: a sequence of whole numbers is wanted, not {instead}")


def _demand_in_range(given: Any, name: str) -> None:
    """Whole numbers of any dtype, each of them a word."""
    wrong = (given < 0) | (given > MOST_WORD)
    if wrong.any():
        place = int(wrong.argmax())
        whole(int(given[place]), MOST_WORD, f"entry {place} of {name}")


def words_of(values: Iterable[int], name: str) -> array[int]:
    """Whole numbers as words: at once where they are plain, else one by one, so that a wrong one is named."""
    values = list(values)
    if set(map(type, values)) <= {int}:
        try:
            return array(_WORDS, values)
        except OverflowError:
            pass
    entries = enumerate(values)
    return array(_WORDS, [whole(value, MOST_WORD, f"entry {place} of {name}") for place, value in entries])


def whole(value: object, most: int, name: str) -> int:
    """A whole number from 0 to most."""
    number = _index_of(value)
    if number is None:
        raise TypeError(f"{name}: a whole number is wanted, not {value!r}")
    if not 0 <= number <= most:
        raise ValueError(f"{name}: {_shown(number)} is not from 0 to {most}")
    return number


def _index_of(value: Any) -> int | None:
    """The whole number that a value is. A truth value, Python's or NumPy's, is none."""
    if isinstance(value, bool) or getattr(value, "dtype", None) == bool:
        return None
    try:
        return operator.index(value)
    except TypeError:
        return None


def _shown(number: int) -> str:
    """Python writes no number of many thousand digits."""
    return str(number) if number.bit_length() <= 256 else f"a number of {number.bit_length()} bits"


def word(value: object, name: str) -> int:
    return whole(value, MOST_WORD, name)


def exponents_of(values: Sequence[int]) -> Array[c_uint8]:
    """Bytes as the C door takes them."""
    return (c_uint8 * len(values))(*values)
