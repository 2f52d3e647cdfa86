"""Why a call fails."""

from __future__ import annotations

import functools
from typing import Any, Tuple


@functools.total_ordering
class Error(Exception):
    """A call failed: `status` is its number in `phone.h`, and `words` say why.

    Errors are equal where class, status and words are. They can be ordered, pickled and copied.
    """

    def __init__(self, status: int, words: str) -> None:
        super().__init__(status, words)
        self.status, self.words = status, words

    def __str__(self) -> str:
        return self.words

    def _key(self) -> Tuple[Any, ...]:
        return (type(self).__name__, *self.args)

    def __eq__(self, other: object) -> bool:
        if not isinstance(other, Error):
            return NotImplemented
        return self._key() == other._key()

    def __lt__(self, other: object) -> bool:
        if not isinstance(other, Error):
            return NotImplemented
        return self._key() < other._key()

    def __hash__(self) -> int:
        return hash(self._key())


class BadDatabase(Error):
    """A text is no database."""


class BadPrefixes(Error):
    """A text is no table of prefixes; `line` is the first line that is no entry, counted from 1."""

    def __init__(self, status: int, words: str, line: int) -> None:
        super().__init__(status, words)
        self.args, self.line = (status, words, line), line


class NoNumber(Error):
    """A text is no phone number; `status` says why."""


class UnknownCode(Error):
    """No territory of the database has the number's calling code."""


class UnknownRegion(Error):
    """A region's id is none, or the database has no territory of it."""


class Closed(Error):
    """The database or the prefixes were closed, or a number has no database."""
