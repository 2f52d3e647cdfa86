"""Columns of texts in Arrow's layout: made of values, cut into pieces, and turned to values."""

from __future__ import annotations

import ctypes
import itertools
from array import array
from typing import Any, Iterable, List, NamedTuple, Optional, Sequence, Tuple, Union

from ._calls import NarrowTexts, Text, Texts, bytes_of

#: What stands where there is nothing: no pointer is null.
_NOTHING = ctypes.create_string_buffer(8)
_AT_NOTHING = ctypes.addressof(_NOTHING)

_DIGITS = bytes([0x30] + [0x31] * 255)
"""A byte 0 as the digit 0, another as 1."""
_FLAGS = bytes.maketrans(b"01", b"\0\1")


def bits_of(flags: bytes) -> bytearray:
    """The bitmap of flags, a byte each: eight in a byte, the first as its lowest bit."""
    digits = flags.translate(_DIGITS)[::-1]
    return bytearray(int(digits or b"0", 2).to_bytes((len(flags) + 7) // 8, "little"))


def flags_of(bits: int, first: int, count: int) -> bytes:
    """The flags of a bitmap at an address, so many from a place on, a byte each: 1 where it is set.

    All are set where the address is 0.
    """
    if not bits:
        return b"\1" * count
    at, skipped = bits + first // 8, first % 8
    number = int.from_bytes(ctypes.string_at(at, (skipped + count + 7) // 8), "little") >> skipped
    digits = bin(number & ((1 << count) - 1) | 1 << count)[:2:-1]
    return digits.encode().translate(_FLAGS)


def _address(buffer: Any) -> int:
    """Where a buffer that can be written stands."""
    return ctypes.addressof((ctypes.c_char * len(buffer)).from_buffer(buffer)) if buffer else 0


class Chunk(NamedTuple):
    """Texts side by side."""

    width: int
    """How many bytes an offset has."""
    offsets: int
    """The address of the first offset."""
    data: int
    """The address of the bytes, 0 where there is none."""
    bits: int
    """The address of the bitmap, 0 where each text is there."""
    first: int
    """The place of the first text's flag."""
    count: int
    """How many texts there are."""
    keep: Any
    """What holds the memory."""

    def slice(self, start: int, count: int) -> "Chunk":
        """So many of its texts, from a place on."""
        offsets, first = self.offsets + self.width * start, self.first + start
        return self._replace(offsets=offsets, first=first, count=count)

    def _all_offsets(self) -> Any:
        kind = ctypes.c_uint32 if self.width == 4 else ctypes.c_uint64
        return (kind * (self.count + 1)).from_address(self.offsets)

    def widened(self) -> "Chunk":
        """The same with offsets of 64 bits."""
        if self.width == 8:
            return self
        wide = array("Q", self._all_offsets())
        return self._replace(width=8, offsets=wide.buffer_info()[0], keep=(wide, self.keep))

    def values(self) -> List[Optional[bytes]]:
        """Its texts."""
        ends, yes = self._all_offsets(), flags_of(self.bits, self.first, self.count)
        pairs = zip(ends, itertools.islice(ends, 1, None), yes)
        return [ctypes.string_at(self.data + a, b - a) if is_there else None
                for a, b, is_there in pairs]

    def given(self) -> Union[Texts, NarrowTexts]:
        """It as a call takes it."""
        kind, word = (NarrowTexts, ctypes.c_uint32) if self.width == 4 else (Texts, ctypes.c_uint64)
        last = word.from_address(self.offsets + self.width * self.count).value
        return kind(
            ctypes.cast(self.offsets, ctypes.POINTER(word)), self.count + 1,
            self.data or _AT_NOTHING, last if self.data else 0,
            self.bits or _AT_NOTHING, (self.first + self.count + 7) // 8 if self.bits else 0,
            self.first,
        )


def one_hint(hint: bytes, width: int) -> Union[Texts, NarrowTexts]:
    """One default region for all texts, as a call takes it: it is held by what it is given to."""
    kind, word = (NarrowTexts, ctypes.c_uint32) if width == 4 else (Texts, ctypes.c_uint64)
    at = ctypes.cast(ctypes.c_char_p(hint), ctypes.c_void_p)
    made = kind(
        ctypes.cast(_AT_NOTHING, ctypes.POINTER(word)), 0, at, len(hint), _AT_NOTHING, 0, 0
    )
    made.keep = hint
    return made


def _ascii(values: Sequence[Any]) -> Optional[bytes]:
    """The bytes of texts, one behind the other; `None` where one isn't a `str` of ASCII alone."""
    try:
        joined = "".join(values)
    except TypeError:
        return None
    return joined.encode() if joined.isascii() else None


def _joined(values: Sequence[Text]) -> Tuple[bytes, Iterable[int]]:
    """The bytes of texts, one behind the other, and how many each has."""
    data = _ascii(values)
    if data is not None:
        return data, map(str.__len__, values)  # type: ignore[arg-type]
    encoded = list(map(bytes_of, values))
    return b"".join(encoded), map(len, encoded)


def chunk_of(values: Sequence[Optional[Text]]) -> Chunk:
    """The texts of values, of which `None` is none."""
    there, bits, texts = bytes([it is not None for it in values]), bytearray(), values
    if 0 in there:
        bits, texts = bits_of(there), ["" if it is None else it for it in values]
    joined, lens = _joined(texts)  # type: ignore[arg-type]
    offsets, data = array("Q", list(itertools.accumulate(lens, initial=0))), bytearray(joined)
    keep = (offsets, data, bits)
    return Chunk(8, offsets.buffer_info()[0], _address(data), _address(bits), 0, len(values), keep)
