"""What a person gives to the command: sheets, the text form, numbers; from files, standard input or typed."""

from __future__ import annotations

import codecs
import os
import re
import sys
from typing import List, NamedTuple, Optional, Sequence

from .calls import Factors
from .drafts import sheet_from_text
from .refusals import Refusal, factors_text
from .sheets import read_sheet
from .typed import InputError, is_list, numbers_of

STANDARD_INPUT = "-"


def said(path: str) -> str:
    """What a message calls a file."""
    return "standard input" if path == STANDARD_INPUT else path or "''"


def demand_standard_input() -> None:
    if sys.stdin is None:
        raise InputError("standard input is closed")


def demand_read_once(sources: Sequence[str]) -> None:
    if list(sources).count(STANDARD_INPUT) > 1:
        raise InputError("standard input can be read once")


def read_bytes(path: str) -> bytes:
    if path == STANDARD_INPUT:
        demand_standard_input()
        return sys.stdin.buffer.read()
    with open(path, "rb") as file:
        return file.read()


def text_in(data: bytes, path: str) -> str | None:
    """The text that a file holds, or None: a sheet is no text, since it starts with a byte 1 and a byte 0."""
    if data.startswith((codecs.BOM_UTF16_LE, codecs.BOM_UTF16_BE)):
        raise InputError(f"{said(path)}: this is text in UTF-16; save it in UTF-8")
    if not data or re.search(rb"[\x00-\x08\x0e-\x1f]", data):
        return None
    return data.decode("utf-8-sig", errors="replace")


def sheet_in(path: str) -> bytes:
    """A sheet as it is, or made from the text form."""
    data = read_bytes(path)
    text = text_in(data, path)
    return data if text is None else sheet_from_text(text, said(path))


class Given(NamedTuple):
    """What one argument gives: rings, with the modulus and the factor list that a sheet tells."""

    rings: List[List[int]]
    modulus: Optional[int] = None
    factors: Optional[Factors] = None

    @property
    def is_a_sheet(self) -> bool:
        return self.modulus is not None


def given_by(source: str, with_readings: bool) -> Given:
    """Numbers are one ring, typed or in a file; a sheet is its pattern and, if wanted, its readings."""
    if is_list(source):
        return Given([numbers_of(source)])
    if source != STANDARD_INPUT and not os.path.exists(source):
        return Given([_listed(source)])
    data = read_bytes(source)
    if not data.strip():
        raise InputError(f"{said(source)} is empty")
    text = text_in(data, source)
    if text is None:
        return _given_by_sheet(data, source, with_readings)
    if is_list(text):
        return Given([numbers_of(text)])
    return _given_by_sheet(sheet_from_text(text, said(source)), source, with_readings)


def _listed(source: str) -> List[int]:
    """What is no file should be a list, in which the wrong item can be named."""
    if "," not in source:
        raise InputError(f"{source!r} is neither a file nor a list of whole numbers such as 1,2,0")
    return numbers_of(source)


def _given_by_sheet(sheet: bytes, source: str, with_readings: bool) -> Given:
    try:
        held = read_sheet(sheet)
    except Refusal as refusal:
        raise Refusal(refusal.number, place=refusal.place, words=f"{refusal.words} ({said(source)})") from None
    readings = [held.readings] if with_readings and held.readings is not None else []
    return Given([held.pattern, *readings], held.modulus, held.factors)


class Rings(NamedTuple):
    """The rings of a call, their modulus, and the factor lists of the sheets that they come from."""

    rings: List[List[int]]
    modulus: int
    lists: List[Factors]

    def factors(self, typed: Optional[Factors]) -> Optional[Factors]:
        """The factor list that was typed, else that of the sheets, else none."""
        if typed is not None or not self.lists:
            return typed
        _demand_one([factors_text(factors) for factors in self.lists], "factor lists")
        return self.lists[0]


def rings_of(sources: Sequence[str], wanted: Sequence[str], modulus: Optional[int], with_readings: bool) -> Rings:
    """Puts together what the arguments give: the rings that are wanted, under one modulus."""
    demand_read_once(sources)
    given = [given_by(source, with_readings) for source in sources]
    if with_readings:
        _demand_patterns_first(given, sources)
    rings = [ring for one in given for ring in one.rings]
    if len(rings) != len(wanted):
        raise InputError(_count_fault(len(rings), wanted))
    moduli = [told for told in (modulus, *(one.modulus for one in given)) if told is not None]
    if not moduli:
        raise InputError("there is no modulus: give one with --modulus")
    _demand_one(moduli, "moduli")
    return Rings(rings, moduli[0], [one.factors for one in given if one.factors is not None])


def _demand_patterns_first(given: Sequence[Given], sources: Sequence[str]) -> None:
    """No sheet stands where readings are wanted: its pattern would be taken for them."""
    before = 0
    for one, source in zip(given, sources):
        if one.is_a_sheet and before % 2:
            raise InputError(f"readings are wanted where the sheet {said(source)} stands")
        before += len(one.rings)


def _demand_one(told: Sequence[object], names: str) -> None:
    for other in told:
        if other != told[0]:
            raise InputError(f"there are two {names}, {told[0]} and {other}")


def _count_fault(rings: int, wanted: Sequence[str]) -> str:
    hint = "; entries of one ring have commas between them, as in 1,2,0" if rings > len(wanted) else ""
    return f"{' and '.join(wanted)} {'is' if len(wanted) == 1 else 'are'} wanted, and {_rings_are(rings)} given{hint}"


def _rings_are(count: int) -> str:
    return "1 ring is" if count == 1 else f"{count} rings are"
