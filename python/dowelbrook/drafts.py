"""Sheets in the making, from options or from the text form.

No value is judged, so that wrong sheets can be made too.
"""

from __future__ import annotations

import re
from typing import Iterable, Sequence

from .calls import divided_out
from .grammar import FACTORS, HEADER, KINDS, MODULUS, MOST_BYTES, PATTERN, VERSION, Kind
from .refusals import factors_text
from .typed import InputError, bytes_of, factor_of, items_of, number_of

KIND_OF_NAME = {kind.name: kind for kind in KINDS}


def kind_named(name: str) -> Kind:
    if name not in KIND_OF_NAME:
        raise InputError(f"{name!r} is not a field")
    return KIND_OF_NAME[name]


def encode_item(kind: Kind, text: str) -> bytes:
    if kind is FACTORS:
        prime, exponent = factor_of(text)
        return prime.to_bytes(4, "big") + bytes([exponent])
    return number_of(text, 256**kind.item_size - 1).to_bytes(kind.item_size, "big")


def encode_field(kind: Kind, items: Sequence[str]) -> bytes:
    if kind.has_one_item and len(items) != 1:
        raise InputError(f"{kind.name} takes one number, not {len(items)}")
    value = b"".join(encode_item(kind, item) for item in items)
    if len(value) > MOST_BYTES:
        raise InputError(f"{kind.name} would have {len(value)} bytes; a field holds at most {MOST_BYTES}")
    return bytes([kind.tag]) + len(value).to_bytes(2, "big") + value


class Draft:
    """A sheet in the making: its pieces in order (bytes put as they are have no kind), and what is left out."""

    def __init__(self) -> None:
        self.pieces: list[tuple[Kind | None, bytes]] = []
        self.left_out: set[Kind] = set()

    def add(self, name: str, text: str) -> None:
        if name == "without":
            self.left_out.update(map(kind_named, items_of(text)))
        elif name == "bytes":
            self.pieces.append((None, bytes_of(text)))
        else:
            kind = kind_named(name)
            self.pieces.append((kind, encode_field(kind, items_of(text))))

    def _place_of(self, kind: Kind) -> int | None:
        return next((at for at, piece in enumerate(self.pieces) if piece[0] is kind), None)

    def _lacks(self, kind: Kind) -> bool:
        return kind not in self.left_out and self._place_of(kind) is None

    def _add_version(self) -> None:
        self.pieces.insert(0, (VERSION, encode_field(VERSION, ["1"])))

    def _add_factors(self) -> None:
        at = self._place_of(MODULUS)
        if at is None:
            raise InputError("factors cannot be worked out without a modulus")
        modulus = int.from_bytes(self.pieces[at][1][HEADER:], "big")
        items = factors_text(divided_out(modulus)).split()
        self.pieces.insert(at + 1, (FACTORS, encode_field(FACTORS, items)))

    def _demand_whole(self) -> None:
        for kind in (MODULUS, PATTERN):
            if self._lacks(kind):
                raise InputError(f"the {kind.name} is missing (`without {kind.name}` leaves it out on purpose)")
        for kind in self.left_out:
            if self._place_of(kind) is not None:
                raise InputError(f"the {kind.name} is given and left out")

    def sheet(self) -> bytes:
        self._demand_whole()
        if self._lacks(VERSION):
            self._add_version()
        if self._lacks(FACTORS):
            self._add_factors()
        return b"".join(raw for _, raw in self.pieces)


def sheet_from_text(text: str, source: str) -> bytes:
    """A sheet from the text form; source is what messages call it."""
    draft = Draft()
    for number, line in enumerate(re.split("\r\n|\r|\n", text), 1):
        words = line.partition("#")[0].split(None, 1)
        if not words:
            continue
        try:
            draft.add(words[0], "".join(words[1:]))
        except InputError as error:
            raise InputError(f"{source}, line {number}: {error}") from None
    try:
        return draft.sheet()
    except InputError as error:
        raise InputError(f"{source}: {error}") from None


def sheet_from_options(options: Iterable[tuple[str, str, str]]) -> bytes:
    """A sheet from fields, each with the option by which it was given and its text."""
    draft = Draft()
    for name, option, text in options:
        try:
            draft.add(name, text)
        except InputError as error:
            raise InputError(f"{option}: {error}") from None
    return draft.sheet()
