"""The matcher of `phonenumbers`: numbers that stand in a text."""

from __future__ import annotations

from typing import Iterator, List, Optional

from . import _regions
from ._plain import PhoneNumber, _Names, plain_number
from .database import Leniency as _Level


class Leniency(_Names):
    """Which numbers are found: the two stricter levels look at groups of digits."""

    POSSIBLE = 0
    VALID = 1
    STRICT_GROUPING = 2
    EXACT_GROUPING = 3


class PhoneNumberMatch:
    """A number in a text: where it stands, in characters, how it is written, and which it is."""

    def __init__(self, start: int, raw_string: str, numobj: PhoneNumber) -> None:
        if start < 0 or raw_string is None or numobj is None:
            raise ValueError("a match has a place, a text and a number")
        self.start, self.raw_string, self.number = start, raw_string, numobj
        self.end = start + len(raw_string)

    def __eq__(self, other: object) -> bool:
        return isinstance(other, PhoneNumberMatch) and vars(self) == vars(other)

    __hash__ = None  # type: ignore[assignment]

    def __repr__(self) -> str:
        told = f"start={self.start!r}, raw_string={self.raw_string!r}, numobj={self.number!r}"
        return f"PhoneNumberMatch({told})"

    def __str__(self) -> str:
        return f"PhoneNumberMatch [{self.start},{self.end}) {self.raw_string}"


class PhoneNumberMatcher:
    """The numbers that stand in a text, one after the other.

    >>> from phonenumber_proved import phonenumbers
    >>> for match in phonenumbers.PhoneNumberMatcher("Ring 03-331 6005 today", "NZ"):
    ...     print(match, match.number)
    PhoneNumberMatch [5,16) 03-331 6005 Country Code: 64 National Number: 33316005

    They are found by libphonenumber's rules. All of the text is searched at the first question.
    """

    def __init__(
        self, text: Optional[str], region: Optional[str], leniency: int = Leniency.VALID,
        max_tries: int = 65535,
    ) -> None:
        if leniency not in Leniency.values():
            raise ValueError("the leniency is none of Leniency's")
        if int(max_tries) < 0:
            raise ValueError("max_tries is 0 at least")
        self._text, self._region, self._leniency = text or "", region, leniency
        self._tries = int(max_tries)
        self._left: Optional[List[PhoneNumberMatch]] = None

    def _found(self) -> List[PhoneNumberMatch]:
        """The matches that are left, the first one last."""
        if self._left is None:
            hint = self._region if self._region in _regions.code_by_region() else None
            level = _Level(self._leniency)
            found = _regions.world().matches(self._text, hint, level, self._tries)
            self._left = [
                PhoneNumberMatch(it.start, self._text[it.start : it.end], plain_number(it.number))
                for it in reversed(found)
            ]
        return self._left

    def has_next(self) -> bool:
        """Whether there is another number."""
        return bool(self._found())

    def next(self) -> PhoneNumberMatch:
        """The next number; `StopIteration` where there is none."""
        if not self.has_next():
            raise StopIteration("no number is left")
        return self._found().pop()

    def __iter__(self) -> Iterator[PhoneNumberMatch]:
        while self.has_next():
            yield self.next()
