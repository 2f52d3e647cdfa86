"""Columns of texts, parsed at once into columns of answers.

Each row has the answers that the calls for one text give. A column is cut into pieces, which threads
parse beside each other, without Python's lock, by the same metadata.
"""

from __future__ import annotations

import ctypes
import enum
import functools
import itertools
import os
import sys
from array import array
from bisect import bisect_right
from collections import deque
from concurrent.futures import ThreadPoolExecutor
from typing import (
    TYPE_CHECKING, Any, Callable, Dict, Iterable, Iterator, List, Optional, Sequence, Tuple, Union,
)

from . import _arrow
from ._calls import (
    NO_REGION, NOT_UTF8, OK, TOO_SMALL, Place, hint_of, long_lib, refuse, words_of,
)
from .layout import Chunk, bits_of, chunk_of, flags_of, one_hint
from .number import Kind, Rules, Source

if TYPE_CHECKING:
    from .database import Database


class Column(enum.IntEnum):
    """A column that may be asked for; its name in small letters is what it is called."""

    E164 = 0
    """The E.164 text, as `+6433316005`."""
    INTERNATIONAL = 1
    """The international text, as `+64 3 331 6005`."""
    NATIONAL = 2
    """The national text, as `03 331 6005`."""
    RFC3966 = 3
    """The text of RFC 3966, as `tel:+64-3-331-6005`."""
    CODE = 4
    """The calling code, as 64."""
    VALUE = 5
    """The national number without its leading zeros, as 33316005."""
    ZEROS = 6
    """How many zeros stand before it."""
    KIND = 7
    """The kind of the number."""
    REGION = 8
    """The id of its region, where it has one, as `NZ`."""
    VALIDITY = 9
    """Whether it is valid."""
    SOURCE = 10
    """How the calling code was found."""
    REFUSAL = 11
    """Why the text is no number, where there is a text and it is none."""
    IS_NUMBER = 12
    """Whether the row has a number; each row has this."""


#: The columns that are told where no others are asked for.
COLUMNS = (Column.E164, Column.KIND, Column.REGION, Column.VALIDITY, Column.REFUSAL)

# So many rows are parsed by one call at most, and so many at least where there are as many.
_PIECE, _LEAST = 8192, 256
# So many bytes a row has in each column, with what texts seldom exceed.
_WIDTHS = (28, 36, 32, 40, 2, 8, 1, 1, 2, 1, 1, 1, 1)
# The statuses that a text has which is no number.
_REFUSALS = (*range(1, 7), NOT_UTF8, NO_REGION)


def words_of_column(column: Column) -> List[str]:
    """The words whose numbers a column has; no number has the empty one."""
    if column == Column.REFUSAL:
        return _refusals()
    kinds: Dict[Column, Any] = {Column.KIND: Kind, Column.SOURCE: Source}
    return [it.name for it in kinds.get(column, ())]


@functools.lru_cache(None)
def _refusals() -> List[str]:
    return [words_of(it) if it in _REFUSALS else "" for it in range(max(_REFUSALS) + 1)]


def columns_named(columns: Sequence[Union[Column, str]]) -> List[Column]:
    """The columns of these names; `ValueError` where one is none."""
    try:
        return [Column[it.upper()] if isinstance(it, str) else Column(it) for it in columns]
    except KeyError as error:
        raise ValueError(f"no column is called {error.args[0].lower()!r}") from None


class Piece:
    """What columns tell of some rows: their buffers, and where each stands."""

    def __init__(self, count: int, out: bytearray, places: Any, at: Dict[Column, int]) -> None:
        """Of so many rows; each column's first buffer has its place there."""
        self.count, self._out, self._places, self._at = count, out, places, at
        self._made: Dict[Column, List[Any]] = {}

    def buffer(self, column: Column, more: int = 0) -> memoryview:
        """A buffer of a column: the texts' bytes, `more` being 1, else what each column has."""
        place = self._places[self._at[column] + more]
        return memoryview(self._out)[place.start : place.end]

    @functools.cached_property
    def _there(self) -> bytes:
        """Which rows have a number: 1, else 0."""
        bits = bytes(self.buffer(Column.IS_NUMBER))
        return flags_of(ctypes.cast(bits, ctypes.c_void_p).value or 0, 0, self.count)

    @functools.cached_property
    def _absent(self) -> List[int]:
        """The rows that have none."""
        return [row for row, it in enumerate(self._there) if not it]

    def _but_absent(self, values: List[Any]) -> List[Any]:
        for row in self._absent:
            values[row] = None
        return values

    def _texts(self, column: Column) -> List[Optional[str]]:
        ends, data = self.buffer(column).cast("Q").tolist(), bytes(self.buffer(column, 1))
        pairs = zip(ends, itertools.islice(ends, 1, None))
        if data.isascii():
            text = data.decode()
            return self._but_absent([text[a:b] for a, b in pairs])
        return self._but_absent([data[a:b].decode() for a, b in pairs])

    def _values(self, column: Column) -> List[Any]:
        if column <= Column.RFC3966:
            return self._texts(column)
        if column == Column.IS_NUMBER:
            return list(map(bool, self._there))
        data = self.buffer(column)
        if column == Column.REFUSAL:
            words = [it or None for it in _refusals()]
            return [words[it] for it in data]
        if column == Column.REGION:
            regions = _Regions()
            return self._but_absent([regions[it] for it in data.cast("H")])
        if column in (Column.KIND, Column.SOURCE):
            members: List[Any] = list(Kind if column == Column.KIND else Source)
            return self._but_absent([members[it] for it in data])
        if column == Column.VALIDITY:
            return self._but_absent(list(map(bool, data)))
        return self._but_absent(data.cast(_FORMATS[column]).tolist())

    def make(self, columns: Sequence[Column]) -> None:
        """Makes the lists of these columns, which are held from then on."""
        self._made.update((it, self._values(it)) for it in columns)

    def values(self, column: Column) -> List[Any]:
        """The values of a column."""
        made = self._made.get(column)
        return self._values(column) if made is None else made


class _Regions(Dict[int, Optional[str]]):
    """The ids of regions by their two bytes; no id where both are 0."""

    def __missing__(self, letters: int) -> Optional[str]:
        made = letters.to_bytes(2, sys.byteorder).decode() if letters else None
        self[letters] = made
        return made


# How `struct` and Arrow name the types of numbers.
_FORMATS = {Column.CODE: "H", Column.VALUE: "Q", Column.ZEROS: "B"}
_ARROW_TYPES = {Column.CODE: b"S", Column.VALUE: b"L", Column.ZEROS: b"C"}


class Told:
    """What columns tell of the rows of a column of texts, by Arrow's protocol of capsules.

    `pyarrow.table(told)`, and what else takes an object with `__arrow_c_stream__`, makes a table of
    it. Texts are Arrow's large strings; kinds, sources and errors are dictionaries of words.
    """

    def __init__(
        self, columns: Sequence[Column], pieces: Iterable[Piece], listed: Sequence[Column] = ()
    ) -> None:
        """What `Database.columns` makes of texts.

        The lists of some columns are made of each piece once it is there, while threads parse the
        next.
        """
        self.columns = list(columns)
        self.pieces: List[Piece] = []
        for piece in pieces:
            piece.make(listed)
            self.pieces.append(piece)

    def __len__(self) -> int:
        return sum(it.count for it in self.pieces)

    @property
    def names(self) -> List[str]:
        """What the columns are called."""
        return [it.name.lower() for it in self.columns]

    def values(self, column: Column) -> List[Any]:
        """A column as a list."""
        return list(itertools.chain.from_iterable(it.values(column) for it in self.pieces))

    def lists(self) -> Dict[str, List[Any]]:
        """Each column as a list."""
        return {it.name.lower(): self.values(it) for it in self.columns}

    def __arrow_c_schema__(self) -> Any:
        """The capsule of the table's type."""
        return _arrow.schema_capsule(self.names, [_given(_EMPTY, it) for it in self.columns])

    def __arrow_c_stream__(self, requested_schema: Any = None) -> Any:
        """The capsule of a stream of the table's batches; another type is not made on request."""
        def batches() -> Iterator[Tuple[int, List[_arrow.Given]]]:
            for piece in self.pieces:
                yield piece.count, [_given(piece, it) for it in self.columns]

        types = [_given(_EMPTY, it) for it in self.columns]
        return _arrow.stream_capsule(self.names, types, batches)


@functools.lru_cache(None)
def _words(column: Column) -> _arrow.Given:
    """The words of a column, as Arrow has them, made once."""
    words = words_of_column(column)
    offsets, data, _ = chunk_of(words).keep
    return _arrow.Given(b"U", len(words), (None, offsets, data))


@functools.lru_cache(None)
def _pairs() -> array[int]:
    """The offsets of texts of two bytes, as many as a piece has at most, made once."""
    return array("i", range(0, 2 * _PIECE + 1, 2))


def _given(piece: Piece, column: Column) -> _arrow.Given:
    """A column of a piece as Arrow has it, over the piece's own bytes where it can be."""
    count, data, bits = piece.count, piece.buffer(column), piece.buffer(Column.IS_NUMBER)
    if column <= Column.RFC3966:
        return _arrow.Given(b"U", count, (bits, data, piece.buffer(column, 1)))
    if column == Column.IS_NUMBER:
        return _arrow.Given(b"b", count, (None, data))
    if column == Column.VALIDITY:
        return _arrow.Given(b"b", count, (bits, bits_of(data.tobytes())))
    if column == Column.REGION:
        has_letters = bits_of(data.tobytes()[::2])
        return _arrow.Given(b"u", count, (has_letters, _pairs(), data))
    if column == Column.REFUSAL:
        refused = bits_of(data.tobytes())
        return _arrow.Given(b"C", count, (refused, data), _words(column))
    if column in (Column.KIND, Column.SOURCE):
        return _arrow.Given(b"C", count, (bits, data), _words(column))
    return _arrow.Given(_ARROW_TYPES[column], count, (bits, data))


# The columns of no rows.
_EMPTY = Piece(0, bytearray(8), (Place * 17)(*[Place(0, 8)] + [Place(0, 0)] * 16),
               {**{it: 0 for it in Column}})


class _Texts:
    """Texts or default regions: from which row on, and for how many, a chunk is made of them."""

    def __init__(self, given: Any) -> None:
        if _is_pandas(given) and not _is_arrow_backed(given):
            given = given.tolist()
        elif _is_pandas(given):
            given = given.reset_index(drop=True).to_frame()
        self._chunks, self._values, self.starts = [], [], [0]
        if _arrow.speaks_arrow(given):
            self._chunks = _arrow.chunks_of(given)
            for it in self._chunks:
                self.starts.append(self.starts[-1] + it.count)
        elif isinstance(given, (str, bytes, bytearray, memoryview)):
            raise TypeError("a column of texts is wanted, not one text")
        else:
            self._values = list(given.tolist() if hasattr(given, "tolist") else given)
            self.starts.append(len(self._values))
        self.count = self.starts[-1]

    def chunk(self, start: int, count: int) -> Chunk:
        """So many texts from a row on, within what is one chunk."""
        if not self._chunks:
            own = self._values[start : start + count]
            return chunk_of([it if it is None or type(it) is str else _or_none(it) for it in own])
        place = bisect_right(self.starts, start) - 1
        return self._chunks[place].slice(start - self.starts[place], count)


def _is_pandas(it: Any) -> bool:
    return type(it).__module__.partition(".")[0] == "pandas" and hasattr(it, "to_frame")


def _is_arrow_backed(series: Any) -> bool:
    """Whether the texts of a pandas `Series` stand in Arrow's layout, and can be handed over so."""
    dtype = series.dtype
    is_arrow = getattr(dtype, "storage", "") == "pyarrow" or hasattr(dtype, "pyarrow_dtype")
    return is_arrow and hasattr(type(series.to_frame()), "__arrow_c_stream__")


def _or_none(it: Any) -> Any:
    """A value; `None` where it is a float that is no number, or pandas' `NA` or `NaT`."""
    is_missing = isinstance(it, float) and it != it or type(it).__name__ in _MISSING
    return None if is_missing else it


_MISSING = ("NAType", "NaTType")


def _read(
    world: "Database", numbers: Any, texts: Chunk, hints: Union[Chunk, bytes], rules: Rules
) -> Tuple[bytearray, Any]:
    """What columns tell of a piece: the buffers, and their places."""
    if isinstance(hints, Chunk) and hints.width != texts.width:
        texts, hints = texts.widened(), hints.widened()
    narrow = texts.width == 4
    call = long_lib.phone_narrow_columns if narrow else long_lib.phone_columns
    under = hints.given() if isinstance(hints, Chunk) else one_hint(hints, texts.width)
    own, places, wrote = texts.given(), (Place * (2 * len(numbers)))(), ctypes.c_size_t()
    room = texts.count * sum(_WIDTHS[it] for it in numbers) + 16 * len(numbers)
    while True:
        out = bytearray(room + 1)  # so that there is an address
        status = world._call(
            call, ctypes.byref(own), ctypes.byref(under), numbers, len(numbers),
            places, len(places),
            (ctypes.c_char * len(out)).from_buffer(out), room, ctypes.byref(wrote), rules=rules,
        )
        if status == OK:
            return out, places
        if status != TOO_SMALL:
            refuse(status)
        room = wrote.value


def _pieces(
    texts: _Texts, hints: Union[_Texts, bytes], threads: int
) -> List[Tuple[int, int]]:
    """Where pieces begin, and how many rows each has: within what is one chunk of both.

    Threads have as many rows each, so that they end together.
    """
    rounds = -(-texts.count // (threads * _PIECE)) or 1
    size = max(_LEAST, -(-texts.count // (threads * rounds)))
    starts = {*texts.starts, *(hints.starts if isinstance(hints, _Texts) else ())}
    ends = sorted({*starts, *range(0, texts.count, size)})
    return [(a, b - a) for a, b in zip(ends, ends[1:])]


Progress = Callable[[int, int], Any]


def _parsed(
    world: "Database", texts: Any, hints: Any, columns: Sequence[Column], threads: Optional[int],
    rules: Rules, progress: Optional[Progress],
) -> Iterator[Piece]:
    """What these columns tell of the rows of texts, piece by piece."""
    if threads is None:
        threads = len(os.sched_getaffinity(0))
    if threads < 1:
        raise ValueError("at least one thread is needed")
    own = _Texts(texts)
    under: Union[_Texts, bytes]
    if hints is None or isinstance(hints, (str, bytes)):
        under = hint_of(hints)
    else:
        under = _Texts(hints)
        if under.count != own.count:
            raise ValueError(f"there are {own.count} texts, and {under.count} hints")
    asked = list(dict.fromkeys([*columns, Column.IS_NUMBER]))
    numbers, at, place = (ctypes.c_uint32 * len(asked))(*asked), {}, 0
    for it in asked:
        at[it], place = place, place + (2 if it <= Column.RFC3966 else 1)

    def read(piece: Tuple[int, int]) -> Piece:
        chunk = under.chunk(*piece) if isinstance(under, _Texts) else under
        out, places = _read(world, numbers, own.chunk(*piece), chunk, rules)
        return Piece(piece[1], out, places, at)

    return _all(read, _pieces(own, under, threads), own.count, threads, progress)


def _all(
    read: Callable[[Tuple[int, int]], Piece], pieces: Sequence[Tuple[int, int]], count: int,
    threads: int, progress: Optional[Progress],
) -> Iterator[Piece]:
    """All pieces, in their order, parsed by so many threads; after each `progress` is called."""
    threads, done = min(threads, len(pieces)), 0
    if threads <= 1:
        for piece in map(read, pieces):
            done += piece.count
            yield _after(piece, done, count, progress)
        return
    with ThreadPoolExecutor(threads) as pool:
        waiting = deque(pool.submit(read, it) for it in pieces)
        try:
            while waiting:
                piece = waiting.popleft().result()
                done += piece.count
                yield _after(piece, done, count, progress)
        finally:
            for each in waiting:
                each.cancel()


def _after(piece: Piece, done: int, count: int, progress: Optional[Progress]) -> Piece:
    if progress is not None:
        progress(done, count)
    return piece


def columns_of(
    world: "Database", texts: Any, hints: Any, columns: Sequence[Column], threads: Optional[int],
    rules: Rules, progress: Optional[Progress],
) -> Any:
    """These columns of the rows of texts, in the form of the texts.

    Lists are made of each piece by the caller's thread, while the others parse the next.
    """
    pieces = _parsed(world, texts, hints, columns, threads, rules, progress)
    as_texts = [it for it in columns if it <= Column.RFC3966]
    if _is_pandas(texts):
        from .frames import frame_of

        return frame_of(Told(columns, pieces, as_texts), texts.index)
    if type(texts).__module__.partition(".")[0] == "numpy":
        from .frames import arrays_of

        return arrays_of(Told(columns, pieces, as_texts))
    if _arrow.speaks_arrow(texts):
        return Told(columns, pieces)
    lists: Dict[Column, List[Any]] = {it: [] for it in columns}
    for piece in pieces:
        for it, values in lists.items():
            values += piece.values(it)
    return {it.name.lower(): values for it, values in lists.items()}
