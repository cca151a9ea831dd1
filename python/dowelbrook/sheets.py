"""Pattern sheets: what they hold, and what the program prints for them, by the library."""

from __future__ import annotations

import struct
from ctypes import c_uint8
from typing import Any, List, NamedTuple, Optional, Tuple

from .door import TEXT_ROOM, function
from .grammar import fault_of
from .refusals import Refusal


class Sheet(NamedTuple):
    """What a pattern sheet holds. The readings are None where they are absent."""

    modulus: int
    factors: List[Tuple[int, int]]
    pattern: List[int]
    readings: Optional[List[int]]


def read_sheet(sheet: bytes) -> Sheet:
    """Reads a pattern sheet. It judges no value but the version.

    >>> whole_case = bytes.fromhex("01000101 0200040000000A 03000A00000002010000000501"
    ...     "04000C000000010000000200000000 05000C000000010000000200000005")
    >>> read_sheet(whole_case)
    Sheet(modulus=10, factors=[(2, 1), (5, 1)], pattern=[1, 2, 0], readings=[1, 2, 5])
    >>> read_sheet(whole_case[:39])
    Sheet(modulus=10, factors=[(2, 1), (5, 1)], pattern=[1, 2, 0], readings=None)
    >>> read_sheet(whole_case[:40])
    Traceback (most recent call last):
    dowelbrook.Refusal: refused 20 at byte 39: the header of a field is cut
    """
    data = _demand_bytes(sheet)
    found = function("read_sheet")(*_pointed_bytes(data))
    if found.number:
        raise _sheet_refusal(found, data)
    readings = _words_in(data, found.readings_from, found.readings_len)
    return Sheet(
        found.modulus,
        _factors_in(data, found.factors_from, found.factors_len),
        _words_in(data, found.pattern_from, found.pattern_len),
        readings if found.readings_present else None,
    )


def report(sheet: bytes) -> str:
    """What the program unmix prints for a sheet.

    >>> print(report(b""), end="")
    refused 23 at 0

    What stands after "at" is an offset in bytes for 20 to 24. For 10 to 12 it is the entry's place in the factor list:

    >>> nine_is_no_prime = bytes.fromhex("01000101 02000400000012 03000A00000002010000000901 04000400000001")
    >>> print(report(nine_is_no_prime), end="")
    refused 11 at 1
    """
    text = (c_uint8 * TEXT_ROOM)()
    length = function("report")(*_pointed_bytes(_demand_bytes(sheet)), text, TEXT_ROOM)
    return bytes(text[:length]).decode("ascii")


def _demand_bytes(sheet: object) -> bytes:
    if not isinstance(sheet, (bytes, bytearray, memoryview)):
        raise TypeError(f"the sheet: bytes are wanted, not type {type(sheet).__name__}")
    return bytes(sheet)


def _pointed_bytes(data: bytes) -> tuple[Any, int]:
    return (c_uint8 * len(data)).from_buffer_copy(data), len(data)


def _sheet_refusal(found: Any, data: bytes) -> Refusal:
    fault = fault_of(data)
    agrees = fault is not None and (fault.number, fault.offset) == (found.number, found.place)
    return Refusal(found.number, place=found.place, words=fault.reason if fault and agrees else None)


def _words_in(sheet: bytes, start: int, length: int) -> list[int]:
    return [word for (word,) in struct.iter_unpack(">I", sheet[start : start + length])]


def _factors_in(sheet: bytes, start: int, length: int) -> list[tuple[int, int]]:
    return [(prime, exponent) for prime, exponent in struct.iter_unpack(">IB", sheet[start : start + length])]
