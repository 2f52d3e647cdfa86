"""A database: what is asked of texts."""

from __future__ import annotations

import ctypes
import enum
from typing import Any, Callable, List, NamedTuple, Optional, Sequence, Union

from ._calls import (
    MEMORY, NO_EXAMPLE, OK, Number, Place, Text, bytes_of, hint_of, items, lib, long_lib, refuse,
    words_of, written,
)
from ._asked import Asked
from ._locks import new_lock
from .columns import COLUMNS, Column, Progress, columns_named, columns_of
from .errors import BadDatabase
from .field import Typing
from .held import Held, PathText
from .number import Kind, PhoneNumber, Possibility, Rules
from .tables import ALTERNATES_TABLE, TABLE

# As many tries as a call takes; no text in memory uses them up.
_ALL_TRIES = (1 << 64) - 1

# From so many bytes on it takes long to find the numbers in a text.
_LONG = 2000


class Sameness(enum.IntEnum):
    """How like two numbers are."""

    EXACT = 0
    """One calling code, one national number, and one extension or none."""
    NUMBER = 1
    """One calling code and one national number; the extensions differ."""
    NATIONAL = 2
    """One of them has no calling code, and the national numbers are one, leading zeros aside."""
    END = 3
    """The national number of one is an end of the other's, of seven digits at least."""
    DIFFERENT = 4
    """None of these."""


class Leniency(enum.IntEnum):
    """Which pieces of a text are found."""

    POSSIBLE = 0
    """Those that are parsed as a number with a possible count of digits."""
    VALID = 1
    """Those that are parsed as a valid number."""
    STRICT_GROUPING = 2
    """Those valid ones that have the groups of digits of a format, in their order."""
    EXACT_GROUPING = 3
    """Those valid ones whose groups of digits are those of a format."""


#: Those that look at groups of digits.
_GROUPED = (Leniency.STRICT_GROUPING, Leniency.EXACT_GROUPING)


class Found(NamedTuple):
    """A number in a text."""

    start: int
    """Where it begins: in characters of a `str`, in bytes of `bytes`."""
    end: int
    """Before which place it ends."""
    number: PhoneNumber
    """The number."""


class Records(Held):
    """Records that a text has."""

    def __init__(self, text: Text) -> None:
        """Opens the records that a JSON text has, or that are given in their compact form.

        `BadDatabase` where there are none.
        """
        data = bytes_of(text)
        self._opened(
            lambda handle: long_lib.phone_open(data, len(data), Rules.LIBRARY, handle)
        )

    def regions(self) -> List[str]:
        """The ids of the regions that the records are of, by the alphabet."""
        ids = written(lambda *out: self._call(lib.phone_regions, *out), 512).decode()
        return [ids[at : at + 2] for at in range(0, len(ids), 2)]

    def _opened(self, call: Callable[[Any], int]) -> None:
        status = self._open(call)
        if status == MEMORY:
            raise MemoryError
        if status != OK:
            raise BadDatabase(status, words_of(status))


class Alternates(Records):
    """Alternate formats, whose groups of digits the stricter leniencies look at, too."""

    @classmethod
    def load(cls, path: PathText = ALTERNATES_TABLE) -> "Alternates":
        """Opens the formats that a file has; without a path, those of all calling codes."""
        return super().load(path)


_opening = new_lock()
_opened: List[Alternates] = []


def _own_alternates() -> Alternates:
    """The alternate formats of this package, opened once for all threads."""
    with _opening:
        if not _opened:
            _opened.append(Alternates.load())
        return _opened[0]


class Database(Asked, Records):
    """A database: the metadata, which numbers there are, and how they are formatted.

    `hint` is the default region: the id of the region in which a text was written, as `NZ`;
    `UnknownRegion` where it is none. Rules are libphonenumber's where no others are given.
    """

    @classmethod
    def load(cls, path: Optional[PathText] = TABLE) -> "Database":
        """Opens the database that a file is; without a path, that of all regions."""
        return cls.world() if path is None else super().load(path)

    @classmethod
    def world(cls) -> "Database":
        """Opens the library's own database, of all regions, and needs no file."""
        database = cls.__new__(cls)
        database._opened(lambda handle: long_lib.phone_open_world(handle, Rules.LIBRARY))
        return database

    def parse(
        self, text: Text, hint: Optional[str] = None, rules: Rules = Rules.LIBRARY
    ) -> PhoneNumber:
        """The number that a text is; `NoNumber` where it is none.

        >>> from phonenumber_proved import Database, Rules
        >>> with Database.load() as world:
        ...     for rules in Rules:
        ...         number = world.parse("+44 (0)20 7946 0018", "US", rules)
        ...         print(rules.name, number.e164, number.is_valid)
        LIBRARY +442079460018 True
        CRATE +4402079460018 False
        """
        data, region, by = bytes_of(text), hint_of(hint), Rules(rules)
        number = Number()
        texts = written(
            lambda *out: self._call(
                lib.phone_parse, region, len(region), data, len(data), ctypes.byref(number), *out,
                rules=by,
            ),
            region=hint,
        )
        return PhoneNumber(number, texts, by, self)

    def report(
        self, line: Text, hint: Optional[str] = None, rules: Rules = Rules.LIBRARY
    ) -> str:
        """The report line of a line, without a line feed."""
        data, region, by = bytes_of(line), hint_of(hint), Rules(rules)
        return written(
            lambda *out: self._call(
                lib.phone_report, region, len(region), data, len(data), *out, rules=by
            ),
            512,
            hint,
        ).decode()

    def typed(self, keys: Text, hint: Optional[str] = None) -> str:
        """What is shown of a number while it is typed, once these keys are.

        Keys are digits of any script, and a plus sign before all of them; all else in the text is
        dropped. `hint` is the region that digits without a plus sign are dialled in.

        >>> from phonenumber_proved import Database
        >>> with Database.load() as world:
        ...     world.typed("0333160", "NZ"), world.typed("+6433316005")
        ('03 331 60', '+64 3 331 6005')
        """
        data, region = bytes_of(keys), hint_of(hint)
        return written(
            lambda *out: self._call(
                lib.phone_typing_shown, region, len(region), data, len(data), *out
            ),
            region=hint,
        ).decode()

    def caret(self, keys: Text, n: int, hint: Optional[str] = None) -> int:
        """After how many characters of what `typed` shows of these keys the n-th key stands.

        0 for no key, and all characters from the last key on.
        """
        data, region, told = bytes_of(keys), hint_of(hint), ctypes.c_size_t()
        if n < 0:
            raise ValueError("keys are counted from 1")
        at = ctypes.byref(told)
        places = min(n, len(data) + 1)  # no text has more keys than bytes
        status = self._call(
            lib.phone_typing_caret, region, len(region), data, len(data), places, at
        )
        return int(told.value) if status == OK else refuse(status, hint)

    def library_typed(self, typed: Text, hint: Optional[str] = None) -> str:
        """What libphonenumber's formatter shows of a number while it is typed, of all that was typed.

        Its marks come and go as digits are typed. After a character that is neither a digit nor a
        plus sign before all else, the text is shown as it was typed. Time grows with the square of
        the text's length.

        >>> from phonenumber_proved import Database
        >>> with Database.load() as world:
        ...     world.library_typed("16502", "US"), world.library_caret("16502", 5, "US")
        ('1 (650) 2', 9)
        """
        data, region = bytes_of(typed), hint_of(hint)
        return written(
            lambda *out: self._call(
                lib.phone_keyed_shown, region, len(region), data, len(data), *out
            ),
            region=hint,
        ).decode()

    def library_caret(self, typed: Text, n: int, hint: Optional[str] = None) -> int:
        """After how many characters of what `library_typed` shows the n-th stands that was typed.

        They are counted from 1; 0 for none.
        """
        data, region, told = bytes_of(typed), hint_of(hint), ctypes.c_size_t()
        if n < 0:
            raise ValueError("characters are counted from 1")
        at = ctypes.byref(told)
        places = min(n, len(data) + 1)  # no text has more characters than bytes
        status = self._call(
            lib.phone_keyed_caret, region, len(region), data, len(data), places, at
        )
        return int(told.value) if status == OK else refuse(status, hint)

    def typing(self, hint: Optional[str] = None) -> "Typing":
        """A field in which nothing is typed yet."""
        return Typing(self, hint)

    def possibility_of_text(
        self, text: Text, hint: Optional[str] = None, rules: Rules = Rules.LIBRARY
    ) -> Possibility:
        """Whether a text, which may not be whole yet, has a possible count of digits.

        >>> from phonenumber_proved import Database
        >>> with Database.load() as world:
        ...     world.possibility_of_text("+1 650 253 000").name
        'TOO_SHORT'
        """
        data, region, told = bytes_of(text), hint_of(hint), ctypes.c_uint32()
        by, at = Rules(rules), ctypes.byref(told)
        status = self._call(
            lib.phone_text_possibility, region, len(region), data, len(data), at, rules=by
        )
        return Possibility(told.value) if status == OK else refuse(status, hint)

    def compare(self, first: Text, second: Text, rules: Rules = Rules.LIBRARY) -> Sameness:
        """How like the numbers of two texts are, each perhaps without its calling code.

        >>> from phonenumber_proved import Database
        >>> with Database.load() as world:
        ...     world.compare("+64 3 331 6005", "tel:+64-3-331-6005").name
        ...     world.compare("+64 3 331 6005", "331 6005").name
        'EXACT'
        'END'
        """
        one, two, told = bytes_of(first), bytes_of(second), ctypes.c_uint32()
        by, at = Rules(rules), ctypes.byref(told)
        status = self._call(lib.phone_compare, one, len(one), two, len(two), at, rules=by)
        return Sameness(told.value) if status == OK else refuse(status)

    def find(
        self, text: Text, hint: Optional[str] = None, leniency: Leniency = Leniency.VALID,
        rules: Rules = Rules.LIBRARY,
    ) -> List[Found]:
        """The numbers in a text, from its front on; they don't overlap.

        The two leniencies that look at groups are libphonenumber's, by its rules alone: `matches`.

        >>> from phonenumber_proved import Database, Leniency
        >>> with Database.load() as world:
        ...     world.find("Ring 03-331 6005 today", "NZ")
        ...     world.find("033 31 60 05", "NZ"), world.find("033 31 60 05", "NZ", Leniency(3))
        [Found(start=5, end=16, number=<PhoneNumber +6433316005>)]
        ([Found(start=0, end=12, number=<PhoneNumber +6433316005>)], [])
        """
        data, region = bytes_of(text), hint_of(hint)
        by, level = Rules(rules), Leniency(leniency)
        if level in _GROUPED:
            if by != Rules.LIBRARY:
                raise ValueError("groups are looked at by libphonenumber's rules alone")
            return self.matches(text, hint, level)
        call = (lib if len(data) < _LONG else long_lib).phone_find
        places = items(
            Place, 8, lambda *out: self._call(
                call, region, len(region), level, data, len(data), *out, rules=by
            ), hint,
        )
        return self._read_at(places, text, data, hint, by)

    def matches(
        self, text: Text, hint: Optional[str] = None, leniency: Leniency = Leniency.VALID,
        tries: int = _ALL_TRIES, alternates: Optional[Alternates] = None,
    ) -> List[Found]:
        """The numbers that stand in a text as libphonenumber finds them.

        Tries are how many candidates and pieces without a number are looked at: where they are
        used up, the rest of the text isn't searched. The two leniencies that look at groups take
        alternate formats too, those of this package where no others are given.

        >>> from phonenumber_proved import Database
        >>> with Database.load() as world:
        ...     world.matches("Ring 03-331 6005 today", "NZ")
        ...     world.matches("on 3/10/2011", "NZ")
        [Found(start=5, end=16, number=<PhoneNumber +6433316005>)]
        []
        """
        data, region, level = bytes_of(text), hint_of(hint), Leniency(leniency)
        most, library = max(0, min(tries, _ALL_TRIES)), lib if len(data) < _LONG else long_lib
        others = _own_alternates() if alternates is None and level in _GROUPED else alternates

        def ask(handle: Any, *rest: Any) -> Any:
            if others is None:
                return library.phone_matches(handle, *rest)
            return others._call(lambda own, *it: library.phone_matches_by(handle, own, *it), *rest)

        places = items(
            Place, 8, lambda *out: self._call(
                ask, region, len(region), level, most, data, len(data), *out
            ), hint,
        )
        return self._read_at(places, text, data, hint, Rules.LIBRARY)

    def _read_at(
        self, places: Any, text: Text, data: bytes, hint: Optional[str], by: Rules
    ) -> List[Found]:
        """The numbers at places of a text."""
        found, last, end = [], 0, 0
        for it in places:
            piece, between = data[it.start : it.end], data[last : it.start]
            if isinstance(text, str):
                start = end + len(between.decode())
                last, end = it.end, start + len(piece.decode())
            else:
                start, end = it.start, it.end
            found.append(Found(start, end, self.parse(piece, hint, by)))
        return found

    def columns(
        self, texts: Any, hints: Any = None, columns: Sequence[Union[Column, str]] = COLUMNS,
        threads: Optional[int] = None, rules: Rules = Rules.LIBRARY,
        progress: Optional[Progress] = None,
    ) -> Any:
        """These columns of a column of texts, each row parsed by itself as by `parse`.

        Texts are a list, an array of NumPy, a `Series` of pandas, or data with Arrow's capsule
        protocol, whose texts aren't copied where they are strings or large strings. Default regions
        are one for all, or such a column of as many. Where a text is none, all is none; the column
        `refusal` says why a text is no number. Answers come as the texts do: as a dictionary of
        lists or of arrays, a data frame over the same index, or a `Told`, which has Arrow's
        protocol.

        Threads are as many as there are processors where none are named; each has its pieces of the
        texts. After each piece `progress` is called, with how many rows are done and how many there
        are. `UnknownRegion` where the one default region is none; a row's own makes an error of the
        row.

        >>> from phonenumber_proved import Database
        >>> with Database.load() as world:
        ...     world.columns(["03-331 6005", "call me", None], "NZ", ["e164", "refusal"])
        {'e164': ['+6433316005', None, None], 'refusal': [None, 'not a number', None]}
        """
        asked, by = columns_named(columns), Rules(rules)
        if isinstance(hints, (str, bytes)):
            self.typed("", hints)  # the hint alone is looked at
        return columns_of(self, texts, hints, asked, threads, by, progress)

    def example(
        self, region: str, kind: Kind, rules: Rules = Rules.LIBRARY
    ) -> Optional[PhoneNumber]:
        """The example number of a region and a kind; `None` where the database has none.

        >>> from phonenumber_proved import Database, Kind
        >>> with Database.load() as world:
        ...     world.example("NZ", Kind.MOBILE).kind.name, world.example("NZ", Kind.UNKNOWN)
        ('MOBILE', None)
        """
        at = hint_of(region or "")
        return self._example(lib.phone_example, at, len(at), Kind(kind), region=region, rules=rules)

    def example_of_code(self, code: int) -> Optional[PhoneNumber]:
        """An example of a calling code that serves no region; `None` for any other code.

        >>> from phonenumber_proved import Database
        >>> with Database.load() as world:
        ...     world.example_of_code(800).e164, world.example_of_code(64)
        ('+80012345678', None)
        """
        return self._example(lib.phone_example_of_code, code) if 0 <= code < 1 << 16 else None

    def example_of_kind(self, kind: Kind) -> Optional[PhoneNumber]:
        """An example of a kind, of whatever region: of the lowest calling code that has one.

        >>> from phonenumber_proved import Database, Kind
        >>> with Database.load() as world:
        ...     world.example_of_kind(Kind.PAGER).e164, world.example_of_kind(Kind.EMERGENCY)
        ('+12684061234', None)
        """
        return self._example(lib.phone_example_of_kind, Kind(kind))

    def invalid_example(self, region: str) -> Optional[PhoneNumber]:
        """A number of a region that isn't valid, for tests; `None` where there is none.

        >>> from phonenumber_proved import Database
        >>> with Database.load() as world:
        ...     world.invalid_example("NZ").is_valid
        False
        """
        at = hint_of(region or "")
        return self._example(lib.phone_invalid_example, at, len(at), region=region)

    def _example(
        self, ask: Callable[..., int], *front: Any, region: Optional[str] = None,
        rules: Rules = Rules.LIBRARY,
    ) -> Optional[PhoneNumber]:
        """The number that a call writes behind these arguments; `None` where there is none."""
        number, by, is_there = Number(), Rules(rules), []

        def call(*out: Any) -> int:
            status: int = self._call(ask, *front, ctypes.byref(number), *out, rules=by)
            is_there.append(status != NO_EXAMPLE)
            return status if is_there[-1] else OK

        texts = written(call, region=region)
        return PhoneNumber(number, texts, by, self) if is_there[-1] else None

    def codes(self) -> List[int]:
        """The calling codes of the database, ascending.

        >>> from phonenumber_proved import Database
        >>> with Database.load() as world:
        ...     world.regions()[:3], world.codes()[:3]
        (['AC', 'AD', 'AE'], [1, 7, 20])
        """
        codes = items(ctypes.c_uint16, 256, lambda *out: self._call(lib.phone_codes, *out))
        return list(codes)
