"""The C door: the shared library, found and called through ctypes."""

from __future__ import annotations

import functools
import os
from ctypes import CDLL, Structure, c_size_t, c_uint32, c_void_p
from pathlib import Path
from typing import Any

from .version import LIBRARY_FILE

# The room that report asks for, DOWELBROOK_TEXT in the header.
TEXT_ROOM = 16_512

_HERE = Path(__file__).resolve().parent
_HOME = _HERE.parent.parent


class Reply(Structure):
    _fields_ = [("number", c_uint32), ("prime", c_uint32), ("ring", c_size_t), ("place", c_size_t)]


class Verdict(Structure):
    _fields_ = [*Reply._fields_, ("same", c_size_t)]


class Held(Structure):
    """What read_sheet answers: where in the sheet the parts lie."""

    _fields_ = [
        ("number", c_uint32),
        ("modulus", c_uint32),
        ("place", c_size_t),
        ("factors_from", c_size_t),
        ("factors_len", c_size_t),
        ("pattern_from", c_size_t),
        ("pattern_len", c_size_t),
        ("readings_present", c_size_t),
        ("readings_from", c_size_t),
        ("readings_len", c_size_t),
    ]


# A pointer and the length beside it.
_LENT = [c_void_p, c_size_t]
_FACTORS = [*_LENT, *_LENT]

_PROTOTYPES: dict[str, tuple[Any, list[Any]]] = {
    "mix": (Reply, [*_LENT, *_LENT, c_uint32, *_LENT]),
    "reduce": (Reply, [*_LENT, c_uint32, c_uint32, *_LENT]),
    "fold": (Reply, [*_LENT, c_uint32, *_LENT]),
    "invert": (Reply, [*_LENT, c_uint32, *_FACTORS, *_LENT]),
    "unmix": (Reply, [*_LENT, *_LENT, c_uint32, *_FACTORS, *_LENT]),
    "same_feeding": (Verdict, [*_LENT, *_LENT, *_LENT, *_LENT, c_uint32, *_FACTORS]),
    "read_sheet": (Held, _LENT),
    "report": (c_size_t, [*_LENT, *_LENT]),
}


def library_path() -> Path:
    """Where DOWELBROOK_LIBRARY points; else beside this file, in ../../lib or in ../../target."""
    named = os.environ.get("DOWELBROOK_LIBRARY")
    if named:
        return Path(named)
    for folder in (_HERE, _HOME / "lib", _HOME / "target"):
        if (folder / LIBRARY_FILE).exists():
            return folder / LIBRARY_FILE
    raise OSError(f"there is no {LIBRARY_FILE}: in a checkout, tools/shared makes it")


@functools.lru_cache(maxsize=None)
def function(name: str) -> Any:
    """A function of the library. Each buffer is a pointer (an address or a ctypes array) and its length."""
    try:
        found = _library()[f"dowelbrook_{name}"]
    except AttributeError as error:
        raise OSError(f"{library_path()} is not the library: {error}") from None
    found.restype, found.argtypes = _PROTOTYPES[name]
    return found


@functools.lru_cache(maxsize=None)
def _library() -> CDLL:
    return CDLL(str(library_path()))
