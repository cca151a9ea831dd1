"""The version: after pip it is told by what pip keeps of the package, before that by the C header."""

from __future__ import annotations

import re
from pathlib import Path

_HEADER = Path(__file__).resolve().parents[2] / "include" / "dowelbrook.h"


def _version() -> str:
    if not _HEADER.exists():
        from importlib import metadata  # slow to load, and not needed in a checkout

        return metadata.version("dowelbrook")
    parts = dict(re.findall(r"#define DOWELBROOK_VERSION_(\w+) (\d+)\n", _HEADER.read_text()))
    return f"{parts['MAJOR']}.{parts['MINOR']}.{parts['PATCH']}"


__version__ = _version()

# The shared library's file; libraries of one major version can stand in for one another.
LIBRARY_FILE = f"libdowelbrook.so.{__version__.partition('.')[0]}"
