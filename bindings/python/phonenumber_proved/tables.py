"""The data that go with this package."""

from __future__ import annotations

import ctypes
import importlib.util
import os
from pathlib import Path
from typing import Optional, Tuple

from ._calls import lib, written

_HERE = Path(__file__).resolve().parent

# Beside these files where they were put there, else in the repository.
_DATA = _HERE / "data" if (_HERE / "data").is_dir() else _HERE.parents[2] / "data"


def _told(folder: Path) -> str:
    """The line that the file VERSION of a folder is, where it has metadata."""
    try:
        (folder / "world.compact").stat()
        return (folder / "VERSION").read_text(encoding="ascii").rstrip()
    except (OSError, ValueError):
        return ""


def _numbers(version: str) -> Tuple[int, ...]:
    """The numbers of a version of libphonenumber's, as `libphonenumber 9.0.35`."""
    name, _, numbers = version.partition(" ")
    parts = numbers.split(".")
    is_one = name == "libphonenumber" and all(it.isascii() and it.isdigit() for it in parts)
    return tuple(map(int, parts)) if is_one else ()


def _newest() -> Path:
    """The folder of metadata: that of this package, or a later one, of the package
    `phonenumber_proved_tables` or of the environment variable `PHONE_TABLES`."""
    found, named = [_DATA], os.environ.get("PHONE_TABLES")
    try:
        spec = importlib.util.find_spec("phonenumber_proved_tables")
    except (ImportError, ValueError):
        spec = None
    if spec and spec.submodule_search_locations:
        found.append(Path(next(iter(spec.submodule_search_locations))))
    if named:
        found.append(Path(named))
    return max(found, key=lambda it: _numbers(_told(it)))


_NEWEST = _newest()

#: The file of the metadata, in the compact form, which opens sooner, or as JSON; `None` where there
#: is none, and the library's own are meant.
TABLE: Optional[str] = os.environ.get("PHONE_TABLE") or (
    str(_NEWEST / "world.compact") if (_NEWEST / "world.compact").is_file() else None
)


def _beside(name: str) -> str:
    """What lies beside the file of the metadata, or what this package has where it isn't there."""
    beside = (Path(TABLE).parent if TABLE else _DATA) / name
    return str(beside if beside.exists() or not (_DATA / name).exists() else _DATA / name)


#: The metadata of short numbers, beside that file.
SHORT_TABLE = _beside("short.json")

#: Those of SMS services, short numbers that messages are sent to.
SMS_TABLE = _beside("sms.json")

#: Alternate formats of groups of digits, which the stricter leniencies look at.
ALTERNATES_TABLE = _beside("alternates.json")

#: The files of prefixes beside it, for `Prefixes.load`: the time zones, parted by `&`, and the
#: English names of carriers.
TIME_ZONES_TABLE = _beside("timezones.tsv")
CARRIERS_TABLE = _beside("carriers.tsv")

#: The English names of areas, and the folder of areas, carriers and names of regions in other
#: languages, as `tools/places` writes them.
AREAS_TABLE = _beside("areas.tsv")
PLACES = os.environ.get("PHONE_PLACES") or _beside("places")


def table_json() -> bytes:
    """The metadata as JSON: of their file or that beside it, or of the library."""
    if TABLE:
        return Path(TABLE).with_suffix(".json").read_bytes()
    length = ctypes.c_size_t()
    return ctypes.string_at(lib.phone_world_text(ctypes.byref(length)), length.value)


def _version() -> Optional[str]:
    if not TABLE:
        return written(lib.phone_table_version).decode()
    try:
        return Path(TABLE).with_name("VERSION").read_text(encoding="ascii").rstrip()
    except OSError:
        return None


#: Where the data are from, by name and version, as `libphonenumber 9.0.35`; the file VERSION
#: beside them has it.
TABLE_VERSION = _version()
