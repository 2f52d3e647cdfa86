"""What columns tell, as arrays of NumPy and as a data frame of pandas: only with these it loads."""

from __future__ import annotations

from typing import Any, Dict, Sequence

import numpy

from .columns import Column, Told, words_of_column

# How wide what a column has of a row is, as NumPy names it.
_TYPES = {
    Column.CODE: "<u2", Column.VALUE: "<u8", Column.ZEROS: "u1", Column.KIND: "u1",
    Column.REGION: "S2", Column.VALIDITY: "?", Column.SOURCE: "u1", Column.REFUSAL: "u1",
}


def _joined(parts: Sequence[Any], kind: str) -> Any:
    return numpy.concatenate(parts) if parts else numpy.empty(0, kind)


def _data(told: Told, column: Column) -> Any:
    """What a column has of each row."""
    kind = _TYPES[column]
    return _joined([numpy.frombuffer(it.buffer(column), kind) for it in told.pieces], kind)


def _there(told: Told) -> Any:
    """Which rows have a number."""
    def flags(piece: Any) -> Any:
        bits = numpy.frombuffer(piece.buffer(Column.IS_NUMBER), "u1")
        return numpy.unpackbits(bits, count=piece.count, bitorder="little").view("?")

    return _joined([flags(it) for it in told.pieces], "?")


def arrays_of(told: Told) -> Dict[str, Any]:
    """Each column as an array: texts as objects; what has a fixed width is masked where it is none."""
    there, arrays = _there(told), {}
    for it in told.columns:
        if it <= Column.RFC3966:
            made = numpy.empty(len(there), object)
            made[:] = told.values(it)
        elif it == Column.IS_NUMBER:
            made = there
        else:
            data, none = _data(told, it), ~there
            if it == Column.REFUSAL:
                none = data == 0
            elif it == Column.REGION:
                data, none = data.astype("U2"), none | (data == b"")
            made = numpy.ma.MaskedArray(data, none)
        arrays[it.name.lower()] = made
    return arrays


def frame_of(told: Told, index: Any) -> Any:
    """The columns as a data frame over an index."""
    import pandas

    there = _there(told)
    return pandas.DataFrame(
        {it.name.lower(): _column(told, it, there, pandas) for it in told.columns}, index=index
    )


def _column(told: Told, column: Column, there: Any, pandas: Any) -> Any:
    """A column as pandas has it: what is none is `NA`, words are categories."""
    if column <= Column.RFC3966:
        return pandas.array(told.values(column), dtype="string")
    if column == Column.IS_NUMBER:
        return there
    data = _data(told, column)
    if column == Column.VALIDITY:
        return pandas.arrays.BooleanArray(data.copy(), ~there)
    if column == Column.REGION:
        ids, codes = numpy.unique(data, return_inverse=True)
        words, codes = [it.decode() for it in ids], numpy.where(data == b"", -1, codes)
        if words[:1] == [""]:
            words, codes = words[1:], numpy.where(codes < 0, -1, codes - 1)
        return pandas.Categorical.from_codes(codes, words)
    words = words_of_column(column)
    if not words:
        return pandas.arrays.IntegerArray(data.copy(), ~there)
    named = [it for it in words if it]
    places = numpy.array([named.index(it) if it else -1 for it in words], "i1")
    some = data != 0 if column == Column.REFUSAL else there
    return pandas.Categorical.from_codes(numpy.where(some, places[data], -1), named)
