"""What a database is asked of regions, of calling codes, and of two texts."""

from __future__ import annotations

import ctypes
from typing import Any, Callable, List, Optional

from . import _calls
from ._calls import OK, UNKNOWN_CODE, Text, bytes_of, hint_of, items, lib, refuse, written
from .held import Held
from .number import Kind
from .questions import NumberMatch, RegionFacts, code_of, match_of


class Asked(Held):
    """libphonenumber's further questions to a database, answered by its rules."""

    def about_region(self, region: str) -> RegionFacts:
        """What is known of a region: `UnknownRegion` where the database has none of that id.

        >>> from phonenumber_proved import Database
        >>> with Database.load() as world:
        ...     world.about_region("GB")
        RegionFacts(code=44, is_nanpa=False, is_portable=True)
        """
        at, told = hint_of(region or ""), _calls.RegionFacts()
        status = self._call(lib.phone_about_region, at, len(at), ctypes.byref(told))
        if status != OK:
            refuse(status, region)
        return RegionFacts(told.code, told.is_nanpa == 1, told.is_portable == 1)

    def national_prefix(self, region: str, only_digits: bool = False) -> Optional[str]:
        """The national prefix of a region, dialled there before a national number.

        A tilde in it means to wait for a tone; `only_digits` leaves tildes out.

        >>> from phonenumber_proved import Database
        >>> with Database.load() as world:
        ...     world.national_prefix("NZ"), world.national_prefix("IT")
        ('0', None)
        """
        at, flag = hint_of(region or ""), int(only_digits)
        call = lib.phone_national_prefix
        prefix = written(lambda *out: self._call(call, at, len(at), flag, *out), 8, region)
        return prefix.decode() or None

    def region_kinds(self, region: str) -> List[Kind]:
        """The kinds of number that a region has, in libphonenumber's order.

        >>> from phonenumber_proved import Database
        >>> with Database.load() as world:
        ...     [kind.name for kind in world.region_kinds("AC")]
        ['FIXED_LINE', 'MOBILE', 'UAN']
        """
        at, call = hint_of(region or ""), lib.phone_region_kinds
        kinds = items(
            ctypes.c_uint32, 16, lambda *out: self._call(call, at, len(at), *out), region
        )
        return [Kind(it) for it in kinds]

    def main_region(self, code: int) -> Optional[str]:
        """The id of a calling code's main region; `001` for a code that serves no region.

        >>> from phonenumber_proved import Database
        >>> with Database.load() as world:
        ...     world.main_region(44), world.main_region(800), world.main_region(999)
        ('GB', '001', None)
        """
        is_there = []

        def call(*out: Any) -> int:
            status: int = self._call(lib.phone_main_region, code_of(code), *out)
            is_there.append(status != UNKNOWN_CODE)
            return status if is_there[-1] else OK

        region = written(call, 8).decode()
        return region if is_there[-1] else None

    def code_kinds(self, code: int) -> List[Kind]:
        """The kinds of number of a calling code that serves no region; none for other codes.

        >>> from phonenumber_proved import Database
        >>> with Database.load() as world:
        ...     [kind.name for kind in world.code_kinds(870)], world.code_kinds(64)
        (['MOBILE', 'VOIP'], [])
        """
        call = lib.phone_code_kinds
        kinds = items(ctypes.c_uint32, 16, lambda *out: self._call(call, code_of(code), *out))
        return [Kind(it) for it in kinds]

    def match(self, first: Text, second: Text) -> NumberMatch:
        """How like the numbers of two texts are, as `PhoneNumber.match` has it.

        >>> from phonenumber_proved import Database
        >>> with Database.load() as world:
        ...     world.match("+64 3 331 6005", "03 331 6005").name
        ...     world.match("+64 3 331 6005", "31 6005").name
        ...     world.library_match("+64 3 331 6005", "31 6005").name
        'NSN_MATCH'
        'NO_MATCH'
        'SHORT_NSN_MATCH'
        """
        return self._match(lib.phone_own_match_texts, first, second)

    def library_match(self, first: Text, second: Text) -> NumberMatch:
        """The same by libphonenumber's rules, by which any digits may be an end of others."""
        return self._match(lib.phone_match_texts, first, second)

    def _match(self, call: Callable[..., int], first: Text, second: Text) -> NumberMatch:
        one, two, told = bytes_of(first), bytes_of(second), ctypes.c_uint32()
        status = self._call(call, one, len(one), two, len(two), ctypes.byref(told))
        return match_of(status, told)
