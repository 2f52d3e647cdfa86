"""The calls of `phone.h` by ctypes, and how texts go to them and come back.

In the repository bindings/declarations.py makes the table of calls of the header, and compares
structs and numbers with it.
"""

from __future__ import annotations

import ctypes
import os
from pathlib import Path
from typing import Any, Callable, NoReturn, Type, TypeVar, Union

from .errors import Closed, Error, NoNumber, UnknownCode, UnknownRegion

#: The version of the calls that is declared here.
VERSION = 3

#: The statuses that are looked at; `phone.h` has all.
OK, MEMORY, IS_CLOSED, TOO_SMALL, NOT_UTF8, NO_REGION, UNKNOWN_CODE = 0, 7, 16, 17, 18, 19, 20
LINE_NO_TAB, NO_PREFIX, NO_EXAMPLE, NO_TERRITORY = 26, 30, 32, 34

#: Any cost, of an example of short numbers.
COST_ANY = 4

#: The errors of statuses that any call may give; 1 to 6 are those of a text that is no number.
_ERRORS = {
    IS_CLOSED: Closed, NOT_UTF8: NoNumber, NO_REGION: UnknownRegion, UNKNOWN_CODE: UnknownCode,
    NO_TERRITORY: UnknownRegion, **dict.fromkeys(range(1, 7), NoNumber),
}

Text = Union[str, bytes, bytearray, memoryview]
Library = TypeVar("Library", bound=ctypes.CDLL)

_HERE = Path(__file__).resolve().parent


class Handle(ctypes.Structure):
    """A database, or nothing where `at` is null."""

    _fields_ = [("at", ctypes.c_void_p)]


class PrefixesHandle(ctypes.Structure):
    """A table of prefixes, or nothing where `at` is null."""

    _fields_ = [("at", ctypes.c_void_p)]


class AtlasHandle(ctypes.Structure):
    """The tables of a locale, or nothing where `at` is null."""

    _fields_ = [("at", ctypes.c_void_p)]


class Part(ctypes.Structure):
    """Where a text stands in the bytes beside a number."""

    _fields_ = [("start", ctypes.c_size_t), ("len", ctypes.c_size_t), ("is_there", ctypes.c_uint8)]


class Number(ctypes.Structure):
    """A phone number. Its texts stand in bytes beside it."""

    _fields_ = [
        ("value", ctypes.c_uint64),
        ("extension", Part),
        ("carrier", Part),
        ("code", ctypes.c_uint16),
        ("source", ctypes.c_uint8),
        ("zeros", ctypes.c_uint8),
    ]


class Facts(ctypes.Structure):
    """What is known of a short number."""

    _fields_ = [
        ("cost", ctypes.c_uint32),
        ("is_possible", ctypes.c_uint8),
        ("is_valid", ctypes.c_uint8),
        ("is_carrier_specific", ctypes.c_uint8),
        ("is_emergency", ctypes.c_uint8),
        ("reaches_emergency", ctypes.c_uint8),
    ]


class RegionFacts(ctypes.Structure):
    """What is known of a region."""

    _fields_ = [
        ("code", ctypes.c_uint16),
        ("is_nanpa", ctypes.c_uint8),
        ("is_portable", ctypes.c_uint8),
    ]


class NumberFacts(ctypes.Structure):
    """What is known of a number."""

    _fields_ = [
        ("area_length", ctypes.c_size_t),
        ("destination_length", ctypes.c_size_t),
        ("is_geographical", ctypes.c_uint8),
        ("is_dialled_from_abroad", ctypes.c_uint8),
    ]


class FactsAnywhere(ctypes.Structure):
    """What is known of a number as a short number of any region of its calling code."""

    _fields_ = [
        ("cost", ctypes.c_uint32),
        ("is_possible", ctypes.c_uint8),
        ("is_valid", ctypes.c_uint8),
        ("is_carrier_specific", ctypes.c_uint8),
    ]


class Place(ctypes.Structure):
    """Where a number stands in a text, in bytes."""

    _fields_ = [("start", ctypes.c_size_t), ("end", ctypes.c_size_t)]


class Texts(ctypes.Structure):
    """A column of texts in Arrow's layout; or one default region for all texts, without an offset."""

    _fields_ = [
        ("offsets", ctypes.POINTER(ctypes.c_uint64)),
        ("offsets_len", ctypes.c_size_t),
        ("bytes", ctypes.c_void_p),
        ("bytes_len", ctypes.c_size_t),
        ("bits", ctypes.c_void_p),
        ("bits_len", ctypes.c_size_t),
        ("first", ctypes.c_size_t),
    ]


class NarrowTexts(ctypes.Structure):
    """The same with offsets of 32 bits."""

    _fields_ = [("offsets", ctypes.POINTER(ctypes.c_uint32)), *Texts._fields_[1:]]


def _declare(lib: Library) -> None:
    """Gives each call its types: that of its answer, and those of its arguments."""
    text, address, size, pointer = ctypes.c_char_p, ctypes.c_void_p, ctypes.c_size_t, ctypes.POINTER
    u8, u16, u32, u64 = ctypes.c_uint8, ctypes.c_uint16, ctypes.c_uint32, ctypes.c_uint64
    handle, prefixes, number = pointer(Handle), pointer(PrefixesHandle), pointer(Number)
    short_facts, place, atlas = pointer(Facts), pointer(Place), pointer(AtlasHandle)
    region_facts, number_facts = pointer(RegionFacts), pointer(NumberFacts)
    facts_anywhere = pointer(FactsAnywhere)
    texts, narrow_texts = pointer(Texts), pointer(NarrowTexts)
    # Made by `bindings/declarations.py --write` of `phone.h`: edit that.
    calls: dict[str, list[Any]] = {
        "open": [u32, text, size, u32, handle],
        "open_world": [u32, handle, u32],
        "world_text": [address, pointer(size)],
        "open_newest": [u32, handle, u32, text, size, text, size, pointer(size)],
        "share": [u32, handle, handle],
        "share_by": [u32, handle, u32, handle],
        "close": [None, handle],
        "report": [u32, handle, text, size, text, size, text, size, pointer(size)],
        "parse": [u32, handle, text, size, text, size, number, text, size, pointer(size)],
        "format": [u32, handle, number, text, size, u32, text, size, pointer(size)],
        "kind": [u32, handle, number, pointer(u32)],
        "region": [u32, handle, number, text, size, pointer(size)],
        "is_valid": [u32, handle, number, pointer(u8)],
        "possibility": [u32, handle, number, pointer(u32)],
        "text_possibility": [u32, handle, text, size, text, size, pointer(u32)],
        "compare": [u32, handle, text, size, text, size, pointer(u32)],
        "dialled_from": [u32, handle, text, size, number, text, size, text, size, pointer(size)],
        "example": [u32, handle, text, size, u32, number, text, size, pointer(size)],
        "regions": [u32, handle, text, size, pointer(size)],
        "codes": [u32, handle, pointer(u16), size, pointer(size)],
        "find": [u32, handle, text, size, u32, text, size, place, size, pointer(size)],
        "columns": [
            u32, handle, texts, texts, pointer(u32), size, place, size, text, size, pointer(size),
        ],
        "narrow_columns": [
            u32, handle, narrow_texts, narrow_texts, pointer(u32), size, place, size, text, size,
            pointer(size),
        ],
        "typing_shown": [u32, handle, text, size, text, size, text, size, pointer(size)],
        "typing_caret": [u32, handle, text, size, text, size, size, pointer(size)],
        "keyed_shown": [u32, handle, text, size, text, size, text, size, pointer(size)],
        "keyed_caret": [u32, handle, text, size, text, size, size, pointer(size)],
        "short": [u32, handle, text, size, text, size, short_facts],
        "about_region": [u32, handle, text, size, region_facts],
        "national_prefix": [u32, handle, text, size, u8, text, size, pointer(size)],
        "region_kinds": [u32, handle, text, size, pointer(u32), size, pointer(size)],
        "main_region": [u32, handle, u16, text, size, pointer(size)],
        "code_kinds": [u32, handle, u16, pointer(u32), size, pointer(size)],
        "mobile_token": [u32, u16, text, size, pointer(size)],
        "about_number": [u32, handle, number, number_facts],
        "is_valid_for": [u32, handle, text, size, number, pointer(u8)],
        "possibility_as": [u32, handle, u32, number, pointer(u32)],
        "is_geographical": [u32, u32, u16, pointer(u8)],
        "truncate": [u32, handle, number, pointer(u8)],
        "match_numbers": [u32, number, text, size, number, text, size, pointer(u32)],
        "match_text": [u32, handle, number, text, size, text, size, pointer(u32)],
        "match_texts": [u32, handle, text, size, text, size, pointer(u32)],
        "national_with": [
            u32, handle, number, text, size, text, size, u8, text, size, pointer(size),
        ],
        "normalize": [u32, u32, text, size, text, size, pointer(size)],
        "has_letters": [u32, text, size, pointer(u8)],
        "prefixes_open": [u32, text, size, prefixes, pointer(size)],
        "prefixes_share": [u32, prefixes, prefixes],
        "prefixes_close": [None, prefixes],
        "prefixes_longest": [u32, prefixes, text, size, text, size, pointer(size), pointer(size)],
        "atlas_open": [
            u32, text, size, prefixes, prefixes, prefixes, prefixes, text, size, atlas,
            pointer(size),
        ],
        "atlas_close": [None, atlas],
        "description": [
            u32, handle, atlas, number, text, size, text, size, u8, text, size, pointer(size),
        ],
        "carrier": [u32, handle, atlas, number, text, size, u8, text, size, pointer(size)],
        "safe_carrier": [u32, handle, atlas, number, text, size, text, size, pointer(size)],
        "country_name": [u32, handle, atlas, number, text, size, text, size, pointer(size)],
        "time_zones": [u32, handle, prefixes, number, text, size, u8, text, size, pointer(size)],
        "matches": [u32, handle, text, size, u32, u64, text, size, place, size, pointer(size)],
        "matches_by": [
            u32, handle, handle, text, size, u32, u64, text, size, place, size, pointer(size),
        ],
        "key": [u32, number, text, size, pointer(size)],
        "is_viable": [u32, text, size, pointer(u8)],
        "status_words": [u32, u32, text, size, pointer(size)],
        "word": [u32, u32, u32, text, size, pointer(size)],
        "version": [u32],
        "table_version": [u32, text, size, pointer(size)],
        "format_read": [
            u32, handle, u32, text, size, number, text, size, text, size, pointer(size),
        ],
        "mobile_text": [
            u32, handle, text, size, u8, text, size, number, text, size, text, size, pointer(size),
        ],
        "text_from": [
            u32, handle, text, size, text, size, number, text, size, text, size, pointer(size),
        ],
        "original_text": [
            u32, handle, text, size, text, size, number, text, size, text, size, pointer(size),
        ],
        "format_by": [u32, handle, handle, u32, number, text, size, text, size, pointer(size)],
        "short_anywhere": [u32, handle, handle, number, facts_anywhere],
        "short_example": [u32, handle, text, size, u32, text, size, pointer(size)],
        "is_sms_service": [u32, handle, handle, text, size, number, pointer(u8)],
        "example_of_code": [u32, handle, u16, number, text, size, pointer(size)],
        "invalid_example": [u32, handle, text, size, number, text, size, pointer(size)],
        "text_with_letters": [
            u32, handle, text, size, text, size, number, text, size, text, size, pointer(size),
        ],
        "dialled_with_letters": [
            u32, handle, text, size, text, size, number, text, size, text, size, pointer(size),
        ],
        "extract": [u32, text, size, text, size, pointer(size)],
        "example_of_kind": [u32, handle, u32, number, text, size, pointer(size)],
        "own_mobile_text": [
            u32, handle, text, size, u8, number, text, size, text, size, pointer(size),
        ],
        "reaches_from_abroad": [u32, handle, number, pointer(u8)],
        "known_cost": [u32, handle, handle, number, pointer(u32)],
        "own_possibility": [u32, handle, u32, number, pointer(u32)],
        "own_match_numbers": [u32, number, text, size, number, text, size, pointer(u32)],
        "own_match_text": [u32, handle, number, text, size, text, size, pointer(u32)],
        "own_match_texts": [u32, handle, text, size, text, size, pointer(u32)],
    }
    for name, (answer, *arguments) in calls.items():
        call = getattr(lib, "phone_" + name)
        call.argtypes, call.restype = arguments, answer


def _library(kind: Type[Library]) -> Library:
    """The shared library, once its version is seen to be at least that of the declarations."""
    places = [_HERE / "libphone.so", _HERE.parents[1] / "c" / "out" / "libphone.so"]
    named = os.environ.get("PHONE_LIBRARY")
    path = named or next((str(place) for place in places if place.exists()), None)
    if path is None:
        raise ImportError("libphone.so is not there: tools/bindings builds it")
    try:
        lib = kind(path)
        lib.phone_version.argtypes, lib.phone_version.restype = [], ctypes.c_uint32
        version = lib.phone_version()
        if version < VERSION:
            raise ImportError(f"{path} has version {version} of these calls, not {VERSION} or later")
        _declare(lib)
    except (OSError, AttributeError) as error:
        raise ImportError(f"{path} is not the library: {error}") from error
    return lib


#: The calls. Nearly each takes less time than to let the interpreter go and to wait for it again.
lib: ctypes.PyDLL = _library(ctypes.PyDLL)

#: The same calls, beside which other threads run: for those that take long.
long_lib: ctypes.CDLL = _library(ctypes.CDLL)


def bytes_of(text: Text) -> bytes:
    """A text in UTF-8. A lone surrogate, which has none, gives bytes that are an error."""
    if isinstance(text, str):
        try:
            return text.encode("utf-8", "surrogateescape")
        except UnicodeEncodeError:
            return text.encode("utf-8", "surrogatepass")
    if isinstance(text, (bytes, bytearray, memoryview)):
        return bytes(text)
    raise TypeError(f"a text is str or bytes, not {type(text).__name__}")


def hint_of(hint: Union[str, bytes, None]) -> bytes:
    """A region's id for a call. The empty text is none; for a call it means no default region."""
    if hint is None:
        return b""
    return bytes_of(hint) or refuse(NO_REGION, hint)


def written(
    call: Callable[..., int], room: int = 64, region: Union[str, bytes, None] = None
) -> bytes:
    """What a call writes: it is given a buffer, its length, and where the answer's length goes.

    The region is the one that it is told of.
    """
    while True:
        out, wrote = ctypes.create_string_buffer(room), ctypes.c_size_t()
        status = call(out, room, ctypes.byref(wrote))
        if status == OK:
            return out.raw[: wrote.value]
        if status != TOO_SMALL:
            refuse(status, region)
        room = wrote.value


def items(
    kind: Any, room: int, call: Callable[..., int], region: Union[str, bytes, None] = None
) -> Any:
    """What a call writes that counts items of a kind, and not bytes."""
    while True:
        out, wrote = (kind * room)(), ctypes.c_size_t()
        status = call(out, room, ctypes.byref(wrote))
        if status == OK:
            return out[: wrote.value]
        if status != TOO_SMALL:
            refuse(status, region)
        room = wrote.value


def words_of(status: int) -> str:
    """The words of a status."""
    out, wrote = ctypes.create_string_buffer(128), ctypes.c_size_t()
    if lib.phone_status_words(status, out, len(out), ctypes.byref(wrote)) != OK:
        return f"status {status} of the library"
    return out.raw[: wrote.value].decode()


def refuse(status: int, region: Union[str, bytes, None] = None) -> NoReturn:
    """Raises the error of a status."""
    if status == MEMORY:
        raise MemoryError
    words = f"no region's id: {region!a}" if status == NO_REGION else words_of(status)
    raise _ERRORS.get(status, Error)(status, words)


def is_viable(text: Text) -> bool:
    """Whether a text may be a number at all: it looks at characters alone."""
    data, told = bytes_of(text), ctypes.c_uint8()
    return bool(lib.phone_is_viable(data, len(data), ctypes.byref(told)) == OK and told.value == 1)
