"""A number as it is typed."""

from __future__ import annotations

from typing import TYPE_CHECKING, NoReturn, Optional

if TYPE_CHECKING:
    from .database import Database


class Typing:
    """A number as it is typed: the keys so far, and what is shown of them.

    >>> from phonenumber_proved import Database
    >>> with Database.load() as world:
    ...     field = world.typing("US")
    ...     print([field.push(key) for key in "6502530"])
    ...     print(field.back(), field.keys, field.caret(4))
    ['6', '65', '650', '650-2', '650-25', '650-253', '650-2530']
    650-253 650253 5
    """

    def __init__(self, database: "Database", hint: Optional[str] = None) -> None:
        self._database, self._hint = database, hint
        self._show("")

    @property
    def keys(self) -> str:
        """The keys so far: digits of ASCII, and perhaps a plus sign before them."""
        return self._keys

    @property
    def shown(self) -> str:
        """What is shown of them."""
        return self._shown

    def push(self, text: str) -> str:
        """Types a character, or several, as one pastes them; returns what is shown.

        A digit of any script is the key of its value, and a plus sign is one before all others; any
        other character changes nothing. Where the call fails, the field stays as it was.
        """
        return self._show(self._keys + text)

    def back(self) -> str:
        """Takes the last key away, where there is one; returns what is shown."""
        return self._show(self._keys[:-1])

    def clear(self) -> None:
        """Takes all keys away."""
        self._keys = self._shown = ""

    def caret(self, n: int) -> int:
        """After how many characters of what is shown the n-th key stands, counted from 1.

        0 for no key, and all characters from the last key on.
        """
        return self._database.caret(self._keys, n, self._hint)

    def _show(self, keys: str) -> str:
        """Shows keys. What is shown is these, with marks between them."""
        self._shown = self._database.typed(keys, self._hint)
        self._keys = "".join(c for c in self._shown if c == "+" or c.isdigit())
        return self._shown

    def __reduce_ex__(self, protocol: object) -> NoReturn:
        raise TypeError("a Typing is neither copied nor pickled")
