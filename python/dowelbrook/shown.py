"""Sheets shown: field by field, in the text form, in hex."""

from __future__ import annotations

from typing import Iterator

from .grammar import FACTORS, HEADER, REQUIRED, Field, Kind, fields_of


def _in_pieces(value: bytes, size: int) -> list[bytes]:
    return [value[at : at + size] for at in range(0, len(value), size)]


def _in_hex(value: bytes) -> str:
    return value.hex(" ").upper()


def _item_text(kind: Kind, item: bytes) -> str:
    if len(item) < kind.item_size:
        return f"({_in_hex(item)})"
    number = int.from_bytes(item[:4], "big")
    return f"{number}^{item[4]}" if kind is FACTORS else str(number)


def _items_text(kind: Kind, value: bytes) -> str:
    return " ".join(_item_text(kind, item) for item in _in_pieces(value, kind.item_size))


def hex_line(field: Field) -> str:
    """Grouped as in document 01: tag, length, then numbers."""
    size = field.kind.item_size if field.kind else len(field.raw)
    numbers = [number for item in _in_pieces(field.value, size) for number in _in_pieces(item, 4)]
    groups = [field.raw[:1], field.raw[1:HEADER], *numbers]
    return " ".join(group.hex().upper() for group in groups if group)


def _text_line(field: Field) -> str:
    """The line of the text form that makes this field."""
    kind = field.kind
    if kind is None or field.is_cut or field.length % kind.item_size:
        return f"bytes {hex_line(field)}"
    if kind.has_one_item and field.length != kind.item_size:
        return f"bytes {hex_line(field)}"
    return f"{kind.name} {_items_text(kind, field.value)}".rstrip()


def text_form(sheet: bytes) -> Iterator[str]:
    lines = [_text_line(field) for field in fields_of(sheet)]
    names = {line.split()[0] for line in lines}
    yield from (f"without {kind.name}" for kind in REQUIRED if kind.name not in names)
    yield from lines


def _table_line(field: Field) -> str:
    if field.is_headless:
        return f"{field.offset:6}  bytes {_in_hex(field.raw)}"
    kind = field.kind
    name = kind.name if kind else "unknown"
    value = _items_text(kind, field.value) if kind else _in_hex(field.value)
    cut = " (cut)" if field.is_cut else ""
    return f"{field.offset:6}  {field.tag:3}  {name:8}  {field.length:6}  {value}{cut}".rstrip()


def field_table(sheet: bytes) -> Iterator[str]:
    yield "offset  tag  field     length  value"
    yield from map(_table_line, fields_of(sheet))
    yield f"{len(sheet):6}  end"
