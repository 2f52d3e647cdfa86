"""Where numbers are: areas, carriers, time zones and names of regions, in a locale."""

from __future__ import annotations

import ctypes
import functools
import os
from pathlib import Path
from typing import Any, List, Optional

from ._calls import LINE_NO_TAB, MEMORY, OK, bytes_of, lib, long_lib, words_of
from .errors import BadPrefixes, Error
from .held import Held, OwnAtlasHandle, OwnPrefixesHandle, PathText
from .prefixes import Prefixes
from .tables import AREAS_TABLE, CARRIERS_TABLE, PLACES, TIME_ZONES_TABLE

#: The zone of numbers of which none is known.
UNKNOWN_ZONE = "Etc/Unknown"

# The regions whose Chinese is written in the traditional script.
_TRADITIONAL = ("tw", "hk", "mo")


@functools.lru_cache(maxsize=None)
def _table(path: str) -> Optional[Prefixes]:
    """The table that a file is, opened once; none where there is no file."""
    return Prefixes.load(path) if os.path.isfile(path) else None


def _handle(table: Optional[Prefixes]) -> OwnPrefixesHandle:
    """A handle of its own on a table; closed where there is none."""
    return OwnPrefixesHandle() if table is None else table._another(0)


def _parts(locale: str) -> List[str]:
    """The parts of a locale, in small letters."""
    return locale.replace("_", "-").lower().split("-")


class Atlas(Held):
    """The tables of texts that a locale asks; with them numbers are asked where they are.

    A locale is a language, perhaps with a script and a region, as `pt`, `zh_TW`, `sr-Latn-RS`.
    Where its language has nothing for a number, the English text stands in, but for Chinese,
    Japanese and Korean; names of regions are of the locale's own files alone.

    >>> from phonenumber_proved import Atlas, Database
    >>> with Database.load() as world, Atlas("de") as german:
    ...     number = world.parse("+41 43 130 25 64")
    ...     german.area(number), german.area(number, user="DE"), german.country_name(number)
    ('Zürich', 'Schweiz', 'Schweiz')

    The tables of a language are opened with its first atlas, and stay open for the next.
    """

    _kind = OwnAtlasHandle

    def __init__(self, locale: str, folder: Optional[PathText] = None) -> None:
        """Opens the atlas of a locale; `folder` has other tables, as `tools/places` writes them."""
        self.locale, self._folder = locale, Path(PLACES if folder is None else folder)
        parts = _parts(locale)
        names = ["-".join(parts[:count]) for count in range(len(parts), 0, -1)]
        files = [self._folder / "names" / f"{it}.tsv" for it in names]
        self._names = b"".join(it.read_bytes() for it in files if it.is_file())
        self._tables = [
            table
            for kind, english in (("areas", AREAS_TABLE), ("carriers", CARRIERS_TABLE))
            for table in self._texts(kind, parts, english)
        ]
        self._line = 0
        self._refuse(self._open(self._opened))

    @classmethod
    def load(cls, path: PathText) -> "Atlas":
        """Raises TypeError: an atlas is of a locale, whose files it finds."""
        raise TypeError("an Atlas is of a locale, and not of a file")

    def _texts(self, kind: str, parts: List[str], english: str) -> List[Optional[Prefixes]]:
        """The tables of a language and of English; that of English alone counts once."""
        own = self._folder / kind / "en.tsv"
        behind = _table(str(own) if own.is_file() else english)
        if parts[0] == "en":
            return [behind, None]
        is_traditional = parts[0] == "zh" and len(parts) > 1 and parts[-1] in _TRADITIONAL
        name = "zh_Hant" if is_traditional else parts[0]
        return [_table(str(self._folder / kind / f"{name}.tsv")), behind]

    def _opened(self, handle: Any) -> int:
        """Opens a handle, and gives the status."""
        locale, names, line = bytes_of(self.locale), self._names, ctypes.c_size_t()
        tables = [_handle(it) for it in self._tables]
        at, opens = ctypes.byref(line), long_lib.phone_atlas_open
        status: int = opens(locale, len(locale), *tables, names, len(names), handle, at)
        self._line = line.value
        return status

    def _refuse(self, status: int) -> None:
        """Raises the error of a status, but for that of an atlas that is open."""
        if status == MEMORY:
            raise MemoryError
        if status == LINE_NO_TAB:
            words = f"line {self._line}: {words_of(status)}"
            raise BadPrefixes(status, words, self._line)
        if status != OK:
            raise Error(status, words_of(status))

    def _another(self, rules: int) -> Any:
        """A handle more, on the same tables; closed where the first is."""
        handle = self._kind()
        if self._first.at:
            self._refuse(self._opened(handle))
        return handle

    def area(self, number: Any, user: Optional[str] = None, as_it_stands: bool = False) -> str:
        """The description of a number: its area, and where none is known the name of its country.

        Nothing where its kind is unknown; its country alone where its kind is of no place, or the
        user's region is another. With `as_it_stands` the kind isn't looked at.
        """
        region, flag = bytes_of(user or ""), int(as_it_stands)
        return self._asked(lib.phone_description, number, region, len(region), flag)

    def carrier(self, number: Any, as_it_stands: bool = False) -> str:
        """The carrier to which a number's range was given first.

        Nothing where numbers of its kind have none, unless `as_it_stands`.
        """
        return self._asked(lib.phone_carrier, number, int(as_it_stands))

    def safe_carrier(self, number: Any) -> str:
        """The same; nothing where a mobile number is kept when the carrier is changed."""
        return self._asked(lib.phone_safe_carrier, number)

    def country_name(self, number: Any) -> str:
        """The name of a number's country; nothing where it is valid in several, or in none."""
        return self._asked(lib.phone_country_name, number)

    def _asked(self, call: Any, number: Any, *args: Any) -> str:
        """What a call tells of a number."""
        return number._told_beside(self, call, *args)  # type: ignore[no-any-return]


@functools.lru_cache(maxsize=64)
def atlas(locale: str) -> Atlas:
    """The atlas of a locale, opened once while not many others are asked for."""
    return Atlas(locale)


@functools.lru_cache(maxsize=None)
def time_zones() -> Prefixes:
    """The table of time zones, opened once."""
    return Prefixes.load(TIME_ZONES_TABLE)
