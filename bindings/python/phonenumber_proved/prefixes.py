"""Tables of prefixes, as of time zones and carriers."""

from __future__ import annotations

import ctypes
from typing import Any, Optional, Tuple

from ._calls import MEMORY, NO_PREFIX, OK, Text, bytes_of, lib, long_lib, words_of, written
from .errors import BadPrefixes
from .held import Held, OwnPrefixesHandle


class Prefixes(Held):
    """A table of prefixes: each line a prefix of 1 to 15 digits, a tab, and a text in UTF-8.

    >>> from phonenumber_proved import BadPrefixes, Prefixes
    >>> with Prefixes("64\\tNew Zealand\\n643\\tSouth Island\\n") as table:
    ...     table.longest("6433316005"), table.longest("6493316005"), table.longest("1")
    (('643', 'South Island'), ('64', 'New Zealand'), None)
    >>> Prefixes("64\\tNew Zealand\\n+1\\tNorth America\\n")
    Traceback (most recent call last):
    ...
    phonenumber_proved.BadPrefixes: line 2: the prefix isn't 1 to 15 digits
    """

    _kind = OwnPrefixesHandle

    def __init__(self, text: Text) -> None:
        """Opens the table that a text is; `BadPrefixes` by the first line that is no entry."""
        data, line = bytes_of(text), ctypes.c_size_t()
        at, opens = ctypes.byref(line), long_lib.phone_prefixes_open
        status = self._open(lambda handle: opens(data, len(data), handle, at))
        if status == MEMORY:
            raise MemoryError
        if status != OK:
            raise BadPrefixes(status, f"line {line.value}: {words_of(status)}", line.value)

    def longest(self, digits: Text) -> Optional[Tuple[str, str]]:
        """Prefix and text of the entry whose prefix is the longest that begins these digits.

        The digits are those of an E.164 number without its plus sign: `number.e164[1:]`. `None`
        exactly where no prefix begins them.
        """
        data, prefix_len = bytes_of(digits), ctypes.c_size_t()

        def call(*out: Any) -> int:
            at = ctypes.byref(prefix_len)
            args = data, len(data), *out, at
            status: int = self._call(lib.phone_prefixes_longest, *args)
            return OK if status == NO_PREFIX else status

        text = written(call)
        if prefix_len.value == 0:
            return None
        return data[: prefix_len.value].decode(), text.decode()
