"""Document 01's grammar of a pattern sheet: its fields, and in words what is wrong with them.

It knows the grammar by itself and does not ask the library, so that the two can be compared.
"""

from __future__ import annotations

from typing import Dict, Iterator, NamedTuple, Optional

from . import numbers

HEADER = 3
MOST_BYTES = 0xFFFF


class Kind(NamedTuple):
    """A row of the table of tags. The readings' length must be the pattern's besides."""

    tag: int
    name: str
    item_size: int
    lengths: range

    @property
    def has_one_item(self) -> bool:
        return len(self.lengths) == 1


VERSION = Kind(1, "version", 1, range(1, 2))
MODULUS = Kind(2, "modulus", 4, range(4, 5))
FACTORS = Kind(3, "factors", 5, range(0, 5 * numbers.MOST_FACTORS + 1, 5))
PATTERN = Kind(4, "pattern", 4, range(0, 4 * numbers.MOST_ENTRIES + 1, 4))
READINGS = Kind(5, "readings", 4, PATTERN.lengths)

REQUIRED = (VERSION, MODULUS, FACTORS, PATTERN)
KINDS = (*REQUIRED, READINGS)
KIND_OF_TAG = {kind.tag: kind for kind in KINDS}


class Field(NamedTuple):
    """A field as it stands in a sheet. The last one's bytes may end before the field does."""

    offset: int
    raw: bytes

    @property
    def is_headless(self) -> bool:
        return len(self.raw) < HEADER

    @property
    def tag(self) -> int:
        return self.raw[0]

    @property
    def length(self) -> int:
        return int.from_bytes(self.raw[1:HEADER], "big")

    @property
    def value(self) -> bytes:
        return self.raw[HEADER:]

    @property
    def is_cut(self) -> bool:
        return len(self.value) < self.length

    @property
    def kind(self) -> Kind | None:
        return None if self.is_headless else KIND_OF_TAG.get(self.tag)


class Fault(NamedTuple):
    """What the reader refuses a sheet with, and why."""

    number: int
    offset: int
    reason: str


Come = Dict[int, Field]


def fields_of(sheet: bytes) -> Iterator[Field]:
    at = 0
    while at < len(sheet):
        length = int.from_bytes(sheet[at + 1 : at + HEADER], "big")
        yield Field(at, sheet[at : at + HEADER + length])
        at += HEADER + length


def fault_of(sheet: bytes) -> Optional[Fault]:
    """The reader's refusal of a sheet."""
    come: Come = {}
    for field in fields_of(sheet):
        fault = _field_fault(field, come)
        if fault:
            number, reason = fault
            return Fault(number, field.offset, reason)
        come[field.tag] = field
    missing = _missing_below(READINGS.tag, come)
    return Fault(numbers.MISSING, len(sheet), f"the sheet ends without a {missing.name} field") if missing else None


def _field_fault(field: Field, come: Come) -> tuple[int, str] | None:
    """The first fault of a field after those that have come, in document 01's order."""
    if field.is_headless:
        return numbers.CUT, "the header of a field is cut"
    kind = field.kind
    if kind is None:
        return numbers.TAG, f"there is no tag {field.tag}"
    if come and field.tag <= max(come):
        return numbers.TAG, f"tag {field.tag} stands after tag {max(come)}"
    missing = _missing_below(field.tag, come)
    if missing:
        return numbers.MISSING, f"the {missing.name} field has not come before the {kind.name} field"
    wrong = _length_fault(field, kind, come)
    if wrong:
        return numbers.LENGTH, wrong
    if field.is_cut:
        return numbers.CUT, f"{len(field.value)} of the {field.length} bytes of the {kind.name} field are there"
    if kind is VERSION and field.value != b"\1":
        return numbers.VERSION, f"the version is {field.value[0]}, not 1"
    return None


def _missing_below(tag: int, come: Come) -> Kind | None:
    return next((kind for kind in REQUIRED if kind.tag < tag and kind.tag not in come), None)


def _length_fault(field: Field, kind: Kind, come: Come) -> str | None:
    if kind is READINGS:
        pattern = come[PATTERN.tag].length
        if field.length == pattern:
            return None
        return f"the readings have {field.length} bytes, the pattern has {pattern}, and an entry has {kind.item_size}"
    if field.length in kind.lengths:
        return None
    return f"the {kind.name} field cannot have {field.length} bytes: {_length_rule(kind)}"


def _length_rule(kind: Kind) -> str:
    if kind.has_one_item:
        return f"it has {kind.item_size}"
    return f"an entry has {kind.item_size}, and there are at most {kind.lengths[-1] // kind.item_size:,}"
