"""Makes the wheel of the package dowelbrook, with the shared library in it, from Python's own library alone.

pip calls build_wheel for `pip install python/` (PEP 517), and build_editable for `pip install -e python/` (PEP 660).
"""

from __future__ import annotations

import base64
import hashlib
import runpy
import sysconfig
import zipfile
from pathlib import Path
from typing import Any

SOURCE = Path(__file__).resolve().parent.parent
PACKAGE = SOURCE / "dowelbrook"
TOLD_BY_PACKAGE = runpy.run_path(str(PACKAGE / "version.py"))
VERSION: str = TOLD_BY_PACKAGE["__version__"]
LIBRARY_FILE: str = TOLD_BY_PACKAGE["LIBRARY_FILE"]
TAG = "py3-none-" + sysconfig.get_platform().replace("-", "_").replace(".", "_")
INFO = f"dowelbrook-{VERSION}.dist-info"

METADATA = f"""\
Metadata-Version: 2.1
Name: dowelbrook
Version: {VERSION}
Summary: Takes the readings of a ring of feeders apart again, by a proved library
Requires-Python: >=3.9
"""

WHEEL = f"""\
Wheel-Version: 1.0
Generator: dowelbrook {VERSION}
Root-Is-Purelib: false
Tag: {TAG}
"""

ENTRY_POINTS = """\
[console_scripts]
dowelbrook = dowelbrook.command:main
"""


def build_wheel(
    wheel_directory: str, config_settings: dict[str, Any] | None = None, metadata_directory: str | None = None
) -> str:
    files = [file for file in PACKAGE.rglob("*") if file.is_file() and "__pycache__" not in file.parts]
    contents = {file.relative_to(SOURCE).as_posix(): file.read_bytes() for file in files}
    contents[f"dowelbrook/{LIBRARY_FILE}"] = library().read_bytes()
    return write_wheel(Path(wheel_directory), contents)


def build_editable(
    wheel_directory: str, config_settings: dict[str, Any] | None = None, metadata_directory: str | None = None
) -> str:
    return write_wheel(Path(wheel_directory), {"dowelbrook.pth": f"{SOURCE}\n".encode()})


def library() -> Path:
    """In lib/ of a distribution, in target/ of a checkout."""
    for folder in ("lib", "target"):
        file = SOURCE.parent / folder / LIBRARY_FILE
        if file.exists():
            return file
    raise SystemExit(f"there is no {file}: run tools/shared")


def write_wheel(folder: Path, contents: dict[str, bytes]) -> str:
    """The same contents always give the same bytes: files are sorted, and a ZipInfo's time is fixed."""
    about = {"METADATA": METADATA, "WHEEL": WHEEL, "entry_points.txt": ENTRY_POINTS}
    whole = {**contents, **{f"{INFO}/{name}": text.encode() for name, text in about.items()}}
    whole[f"{INFO}/RECORD"] = record_of(whole)
    name = f"dowelbrook-{VERSION}-{TAG}.whl"
    with zipfile.ZipFile(folder / name, "w") as wheel:
        for path in sorted(whole):
            entry = zipfile.ZipInfo(path)
            entry.external_attr = 0o100644 << 16
            wheel.writestr(entry, whole[path], zipfile.ZIP_DEFLATED)
    return name


def record_of(contents: dict[str, bytes]) -> bytes:
    """A line for each file, and one without a digest for the list itself."""
    lines = [f"{path},sha256={digest(contents[path])},{len(contents[path])}\n" for path in sorted(contents)]
    return "".join([*lines, f"{INFO}/RECORD,,\n"]).encode()


def digest(content: bytes) -> str:
    return base64.urlsafe_b64encode(hashlib.sha256(content).digest()).rstrip(b"=").decode()
