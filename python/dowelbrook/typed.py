"""Numbers, lists and bytes as a person types them."""

from __future__ import annotations

import re

from .rings import MOST_BYTE, MOST_WORD


class InputError(Exception):
    """Why what a person gave cannot be read."""


def items_of(text: str) -> list[str]:
    """What stands between commas or blanks; brackets around it are taken off. Two commas hold an empty item."""
    inner = text.strip()
    if inner[:1] == "[" and inner[-1:] == "]":
        inner = inner[1:-1].strip()
    if not inner:
        return []
    items = re.split(r"\s*,\s*|\s+", inner)
    if "" in items:
        raise InputError(f"item {items.index('')} of {text.strip()!r} is empty")
    return items


def number_of(text: str, most: int) -> int:
    digits = text.lstrip("0") or text[-1:]
    if not (digits.isascii() and digits.isdigit()) or len(digits) > len(str(most)) or int(digits) > most:
        raise InputError(f"{text!r} is not a whole number from 0 to {most}")
    return int(digits)


def factor_of(text: str) -> tuple[int, int]:
    prime, caret, exponent = text.partition("^")
    try:
        return number_of(prime, MOST_WORD), number_of(exponent if caret else "1", MOST_BYTE)
    except InputError as error:
        raise InputError(f"{text!r} is not a prime with its exponent, such as 2^3: {error}") from None


def is_list(text: str) -> bool:
    """Whether this can be nothing but a list of numbers."""
    return re.fullmatch(r"[0-9\s,\[\]]*", text, re.ASCII) is not None


def numbers_of(text: str) -> list[int]:
    return [number_of(item, MOST_WORD) for item in items_of(text)]


def factors_of(text: str) -> list[tuple[int, int]]:
    return [factor_of(item) for item in items_of(text)]


def bytes_of(text: str) -> bytes:
    """Bytes in hex. Blanks, commas and backquotes are skipped, so that document 01's whole case can be pasted."""
    try:
        return bytes.fromhex(re.sub(r"[\s,`]", "", text))
    except ValueError:
        raise InputError("these are not bytes in hex") from None
