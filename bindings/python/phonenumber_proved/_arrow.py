"""Arrow's columns, as its C data interface hands them over: taken from others, and given to others.

What is taken is held until nothing needs it; what is given holds its memory until it is released.
"""

from __future__ import annotations

import ctypes
import itertools
from typing import Any, Callable, Dict, Iterator, List, NamedTuple, Optional, Sequence, Tuple

from .layout import Chunk, chunk_of, flags_of


class Schema(ctypes.Structure):
    """What a column is called, and of which type it is."""


class Array(ctypes.Structure):
    """A column's buffers."""


class Stream(ctypes.Structure):
    """Columns of one type, one after the other."""

    _fields_ = [
        ("get_schema", ctypes.c_void_p),
        ("get_next", ctypes.c_void_p),
        ("get_last_error", ctypes.c_void_p),
        ("release", ctypes.c_void_p),
        ("private_data", ctypes.c_void_p),
    ]


Schema._fields_ = [
    ("format", ctypes.c_char_p),
    ("name", ctypes.c_char_p),
    ("metadata", ctypes.c_void_p),
    ("flags", ctypes.c_int64),
    ("n_children", ctypes.c_int64),
    ("children", ctypes.POINTER(ctypes.POINTER(Schema))),
    ("dictionary", ctypes.POINTER(Schema)),
    ("release", ctypes.c_void_p),
    ("private_data", ctypes.c_void_p),
]
Array._fields_ = [
    ("length", ctypes.c_int64),
    ("null_count", ctypes.c_int64),
    ("offset", ctypes.c_int64),
    ("n_buffers", ctypes.c_int64),
    ("n_children", ctypes.c_int64),
    ("buffers", ctypes.POINTER(ctypes.c_void_p)),
    ("children", ctypes.POINTER(ctypes.POINTER(Array))),
    ("dictionary", ctypes.POINTER(Array)),
    ("release", ctypes.c_void_p),
    ("private_data", ctypes.c_void_p),
]

_Released = ctypes.CFUNCTYPE(None, ctypes.c_void_p)
_Next = ctypes.CFUNCTYPE(ctypes.c_int, ctypes.c_void_p, ctypes.c_void_p)
_Said = ctypes.CFUNCTYPE(ctypes.c_void_p, ctypes.c_void_p)
_Pointer = ctypes.PYFUNCTYPE(ctypes.c_void_p, ctypes.py_object, ctypes.c_char_p)
_PointerAt = ctypes.PYFUNCTYPE(ctypes.c_void_p, ctypes.c_void_p, ctypes.c_char_p)
_New = ctypes.PYFUNCTYPE(ctypes.py_object, ctypes.c_void_p, ctypes.c_char_p, ctypes.c_void_p)
_pointer = _Pointer(("PyCapsule_GetPointer", ctypes.pythonapi))
_pointer_at = _PointerAt(("PyCapsule_GetPointer", ctypes.pythonapi))
_new = _New(("PyCapsule_New", ctypes.pythonapi))


# What is taken from others.

#: The types of texts: how wide their offsets are, 0 where each text is told by a view.
_TEXTS = {b"u": 4, b"z": 4, b"U": 8, b"Z": 8, b"vu": 0, b"vz": 0}
_INDICES = {
    b"c": ctypes.c_int8, b"C": ctypes.c_uint8, b"s": ctypes.c_int16, b"S": ctypes.c_uint16,
    b"i": ctypes.c_int32, b"I": ctypes.c_uint32, b"l": ctypes.c_int64, b"L": ctypes.c_uint64,
}


class _Owned:
    """A structure that was handed over, released once nothing holds it."""

    def __init__(self, kind: Any) -> None:
        self.it = kind()

    def __del__(self, released: Any = _Released, address: Any = ctypes.addressof) -> None:
        if self.it.release:
            released(self.it.release)(address(self.it))


def speaks_arrow(it: object) -> bool:
    """Whether an object hands its texts over by Arrow's protocol of capsules."""
    return hasattr(it, "__arrow_c_array__") or hasattr(it, "__arrow_c_stream__")


def chunks_of(source: Any) -> List[Chunk]:
    """The texts of an object that speaks Arrow, without a copy where their layout allows it."""
    if hasattr(source, "__arrow_c_stream__"):
        return list(_of_stream(source.__arrow_c_stream__()))
    schema_capsule, array_capsule = source.__arrow_c_array__()
    schema = Schema.from_address(_pointer(schema_capsule, b"arrow_schema"))
    given = Array.from_address(_pointer(array_capsule, b"arrow_array"))
    array = _Owned(Array)
    ctypes.memmove(ctypes.addressof(array.it), ctypes.addressof(given), ctypes.sizeof(Array))
    given.release = None  # it was moved
    return [_chunk(schema, array.it, array)]


def _of_stream(capsule: Any) -> Iterator[Chunk]:
    stream = Stream.from_address(_pointer(capsule, b"arrow_array_stream"))
    at, schema = ctypes.addressof(stream), _Owned(Schema)

    def ask(call: Any, into: Any) -> None:
        if _Next(call)(at, ctypes.addressof(into)):
            said = _Said(stream.get_last_error)(at)
            raise ValueError((ctypes.string_at(said) if said else b"a stream broke off").decode())

    ask(stream.get_schema, schema.it)
    while True:
        array = _Owned(Array)
        ask(stream.get_next, array.it)
        if not array.it.release:
            return
        yield _chunk(schema.it, array.it, array)


def _chunk(schema: Schema, array: Array, keep: Any, skip: int = 0, length: int = -1) -> Chunk:
    """The texts of an array of this type, from a place on. A table of one column is that column."""
    kind, count = schema.format, array.length if length < 0 else length
    if kind == b"+s" and schema.n_children == 1 and not (array.buffers[0] and array.null_count):
        column = schema.children[0].contents, array.children[0].contents
        return _chunk(*column, keep, skip + array.offset, count)
    first = array.offset + skip
    if kind == b"n" or not count:
        return chunk_of([None] * count)
    if schema.dictionary:
        return _of_dictionary(schema, array, first, count)
    if kind not in _TEXTS:
        raise TypeError(f"a column of texts is wanted, not one of Arrow's type {kind.decode()!r}")
    if _TEXTS[kind] == 0:
        return _of_views(array, first, count)
    bits, at, data = (array.buffers[k] or 0 for k in range(3))
    width = _TEXTS[kind]
    return Chunk(width, at + width * first, data, bits, first, count, keep)


def _of_dictionary(schema: Schema, array: Array, first: int, count: int) -> Chunk:
    words = _chunk(schema.dictionary.contents, array.dictionary.contents, array).values()
    kind = _INDICES[schema.format]
    indices = (kind * count).from_address(array.buffers[1] + ctypes.sizeof(kind) * first)
    there = flags_of(array.buffers[0] or 0, first, count)
    return chunk_of([words[it] if yes else None for it, yes in zip(indices, there)])


def _of_views(array: Array, first: int, count: int) -> Chunk:
    """Texts that are told by views: a length, and then the text, or where it stands."""
    at, texts = array.buffers[1] + 16 * first, []
    for yes in flags_of(array.buffers[0] or 0, first, count):
        size = ctypes.c_int32.from_address(at).value
        if not yes:
            texts.append(None)
        elif size <= 12:
            texts.append(ctypes.string_at(at + 4, size))
        else:
            buffer, place = (ctypes.c_int32 * 2).from_address(at + 8)
            texts.append(ctypes.string_at(array.buffers[2 + buffer] + place, size))
        at += 16
    return chunk_of(texts)


# What is given to others.


class Given(NamedTuple):
    """A column that is given: its type, its buffers, the first of them its bitmap or none."""

    kind: bytes
    length: int
    buffers: Tuple[Any, ...]
    words: "Optional[Given]" = None
    """The words whose numbers the column has."""


_held: Dict[int, Any] = {}
_keys = itertools.count(1)


def _hold(it: Any, keep: Any, release: Any) -> None:
    """Has a structure hold what it needs until it is released."""
    key = next(_keys)
    _held[key] = keep
    it.private_data, it.release = key, ctypes.cast(release, ctypes.c_void_p).value


def _lasting(kind: Any, call: Callable[..., Any]) -> Any:
    """A call for C, for as long as the process lasts: what was given may be released last of all."""
    made = kind(call)
    ctypes.pythonapi.Py_IncRef(ctypes.py_object(made))
    return made


def _releases(kind: Any) -> Any:
    """What releases a structure of this kind, and those below it that nobody took."""
    # Names of the module may be gone by then.
    held, released, address = _held, _Released, ctypes.addressof

    def release(at: int) -> None:
        it = kind.from_address(at)
        below = [it.children[k].contents for k in range(it.n_children)]
        if it.dictionary:
            below.append(it.dictionary.contents)
        for each in below:
            if each.release:
                released(each.release)(address(each))
        held.pop(it.private_data, None)
        it.release = None

    return _lasting(_Released, release)


_release_schema, _release_array = _releases(Schema), _releases(Array)


def _linked(it: Any, kind: Any, children: Sequence[Any], words: Any) -> List[Any]:
    """Sets what stands below a structure; what it has to hold for that."""
    places = (ctypes.POINTER(kind) * len(children))(*map(ctypes.pointer, children))
    it.n_children, it.children = len(children), places
    if words is not None:
        it.dictionary = ctypes.pointer(words)
    return [places, children, words]


def _fill_schema(it: Schema, name: bytes, given: Given) -> None:
    words = None
    if given.words is not None:
        words = Schema()
        _fill_schema(words, b"", given.words)
    it.format, it.name, it.metadata, it.flags = given.kind, name, None, 2
    _hold(it, [given.kind, name, *_linked(it, Schema, (), words)], _release_schema)


def _fill_table_schema(it: Schema, names: Sequence[str], columns: Sequence[Given]) -> None:
    children = [Schema() for _ in columns]
    for child, name, given in zip(children, names, columns):
        _fill_schema(child, name.encode(), given)
    it.format, it.name, it.metadata, it.flags = b"+s", b"", None, 0
    _hold(it, _linked(it, Schema, children, None), _release_schema)


def _address(buffer: Any) -> Optional[int]:
    if buffer is None:
        return None
    view = (ctypes.c_char * len(buffer)).from_buffer(buffer)
    return ctypes.addressof(view)


def _fill_array(it: Array, given: Given) -> None:
    words = None
    if given.words is not None:
        words = Array()
        _fill_array(words, given.words)
    places = (ctypes.c_void_p * len(given.buffers))(*map(_address, given.buffers))
    it.length, it.offset, it.n_buffers, it.buffers = given.length, 0, len(places), places
    it.null_count = 0 if given.buffers[0] is None else -1
    _hold(it, [places, given.buffers, *_linked(it, Array, (), words)], _release_array)


def _fill_table(it: Array, columns: Sequence[Given], length: int) -> None:
    children = [Array() for _ in columns]
    for child, given in zip(children, columns):
        _fill_array(child, given)
    places = (ctypes.c_void_p * 1)(None)
    it.length, it.null_count, it.offset, it.n_buffers, it.buffers = length, 0, 0, 1, places
    _hold(it, [places, *_linked(it, Array, children, None)], _release_array)


#: What makes the batches of a table: each its length and its columns.
Batches = Callable[[], Iterator[Tuple[int, List[Given]]]]


class _State:
    """What a stream tells next."""

    def __init__(self, names: Sequence[str], types: Sequence[Given], batches: Batches) -> None:
        self.names, self.types, self.batches = names, types, batches()
        self.said: Optional[bytes] = None


def _told(state: _State, call: Callable[[], None]) -> int:
    """The status of a step of a stream: that of want of memory, or of a broken stream."""
    try:
        call()
    except BaseException as error:  # none may pass through C
        state.said = f"{type(error).__name__}: {error}".encode()
        return 12 if isinstance(error, MemoryError) else 5
    return 0


def _cleared(kind: Any, at: int) -> Any:
    """A structure that somebody else made, without what stood in it: so it is released."""
    ctypes.memset(at, 0, ctypes.sizeof(kind))
    return kind.from_address(at)


def _get_schema(at: int, into: int) -> int:
    state, schema = _held[Stream.from_address(at).private_data], _cleared(Schema, into)
    return _told(state, lambda: _fill_table_schema(schema, state.names, state.types))


def _get_next(at: int, into: int) -> int:
    state, array = _held[Stream.from_address(at).private_data], _cleared(Array, into)

    def step() -> None:
        batch = next(state.batches, None)
        if batch is not None:
            _fill_table(array, batch[1], batch[0])

    return _told(state, step)


def _get_last_error(at: int) -> Optional[int]:
    state = _held[Stream.from_address(at).private_data]
    return ctypes.cast(state.said, ctypes.c_void_p).value if state.said else None


def _release_stream(at: int, kind: Any = Stream, held: Dict[int, Any] = _held) -> None:
    stream = kind.from_address(at)
    held.pop(stream.private_data, None)
    stream.release = None


def _ends(name: bytes, kind: Any) -> Any:
    """What frees the structure of a capsule, which nobody may have taken."""
    held, released, pointer_at = _held, _Released, _pointer_at

    def end(capsule: int) -> None:
        at = pointer_at(capsule, name)
        it = kind.from_address(at)
        if it.release:
            released(it.release)(at)
        held.pop(-at, None)

    return _lasting(_Released, end)


_CALLS = {
    "get_schema": _lasting(_Next, _get_schema), "get_next": _lasting(_Next, _get_next),
    "get_last_error": _lasting(_Said, _get_last_error),
}
_stream_released = _lasting(_Released, _release_stream)
_end_stream = _ends(b"arrow_array_stream", Stream)
_end_schema = _ends(b"arrow_schema", Schema)


def _capsule(it: Any, name: bytes, end: Any) -> Any:
    at = ctypes.addressof(it)
    _held[-at] = it
    return _new(at, name, ctypes.cast(end, ctypes.c_void_p))


def schema_capsule(names: Sequence[str], types: Sequence[Given]) -> Any:
    """The capsule of a table's type."""
    it = Schema()
    _fill_table_schema(it, names, types)
    return _capsule(it, b"arrow_schema", _end_schema)


def stream_capsule(names: Sequence[str], types: Sequence[Given], batches: Batches) -> Any:
    """The capsule of a stream of a table's batches."""
    it = Stream()
    for name, call in _CALLS.items():
        setattr(it, name, ctypes.cast(call, ctypes.c_void_p).value)
    _hold(it, _State(names, types, batches), _stream_released)
    return _capsule(it, b"arrow_array_stream", _end_stream)

